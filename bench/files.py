"""Message files: `show`, `check` and `convert` of both versions, `audit` and `follow`, compared with `xxd -p` and `cat`, which also read each byte."""
import os

from measuring import Row, best_of, generated, instructions, kept, ncp, once

SIZES = (32, 64)  # MiB
ROUNDS = 20
SHOW, XXD, CAT = "ncp show", "xxd -p", "cat"
WORK = [
    (SHOW, ["ncp", "show"], 1),
    ("ncp show, version 2", ["ncp", "show"], 2),
    ("ncp check", ["ncp", "check"], 1),
    ("ncp check, version 2", ["ncp", "check"], 2),
    ("ncp convert", ["ncp", "convert", "--at", "1"], 1),
    ("ncp audit", ["ncp", "audit"], 2),
    ("ncp follow", ["ncp", "follow"], 2),
    (XXD, ["xxd", "-p"], 1),
    (CAT, ["cat"], 1),
]


def made(size, version):
    return kept(f"{size}-{version}.ncp", lambda file: generated(file, size, 63, version))


def program_of(command):
    return [ncp() if word == "ncp" else word for word in command]


def rows(_room):
    """The rows of each size, which are run in turns: what else the machine does meanwhile falls on all of them."""
    for size in SIZES:
        runs = {what: [] for what, _, _ in WORK}
        for _ in range(ROUNDS):
            for what, command, version in WORK:
                # (an audit that finds something ends with 1)
                runs[what].append(once(program_of(command), made(size, version), {0, 1} if "audit" in command else {0}))
        for what, _, version in WORK:
            seconds, peak = best_of(runs[what])
            yield Row(what, f"{size} MiB", os.path.getsize(made(size, version)), "bytes", seconds, peak)


def counts(room):
    """Instructions on a file of one MiB."""
    for version in (1, 2):
        for word in ("show", "check"):
            with open(made(1, version), "rb") as source:
                yield f"ncp {word}, 1 MiB of version {version}", instructions([ncp(), word], source, room)
