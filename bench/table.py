"""Instructions of the calls of a `Table` that name their connection by its link, with 1 connection and with 100."""
from measuring import built, instructions

NAMES = ("ncp_bits", "ncp_wire", "ncp_conn", "anyhow")
COUNT = 8_000
ENTRIES = (1, 100)
# The counted functions: a call of the program, and a call inside it that is subtracted.
CALLS = [("text", "text", None), ("cut and answered", "cut", "all"), ("hear of an ALL", "all", None), ("give", "give", None)]


def a_call(program, call, entries, room):
    whole, before = (instructions([program], f"{call} {entries} {count}\n", room, f"{entries} {count}\n") for count in (COUNT, 0))
    return (whole - before) / COUNT


def counts(room):
    program = built("calls.txt", "table_calls", NAMES, room)
    cost = {(word, entries): a_call(program, word, entries, room) for _, word, _ in CALLS for entries in ENTRIES}
    for what, word, inner in CALLS:
        for entries in ENTRIES:
            yield f"{what}, {entries} in the table", cost[word, entries] - cost.get((inner, entries), 0)
