"""A module of WebAssembly as C: its functions, and its data as one array. A module of a program may have addresses in its data."""
from functions import Function, those_that_reach
from wasm import Refused

ALLOC = "rattle_alloc"
# How far before the data an address may be to which an index is added.
BEFORE_DATA = 4096
NUMBERS_IN_A_LINE = 32
BYTES_OF_ADDRESS = 8
# What follows the data if there are addresses in them.
PUT_ADDRESSES = """
/* The offsets in the data at which an address in the data is stored. */
static const u32 places[] = {
%s
};

/* The data have offsets there, and get addresses: once, before anything else. */
static void put_addresses(void)
{
    size_t at;
    for (at = 0; at < sizeof places / sizeof *places; at++) store64(DATA(places[at]), DATA(load64(DATA(places[at]))));
}
"""


def in_lines(numbers):
    return ",\n".join(" " + ",".join(map(str, numbers[at:at + NUMBERS_IN_A_LINE])) for at in range(0, len(numbers), NUMBERS_IN_A_LINE))


class Translation:
    """`prefix` precedes the names of exported functions. The data of a program may contain addresses, which it stores there when it starts."""

    def __init__(self, module, prefix, is_program=False):
        self.module = module
        self.first = min((it.address for it in module.segments), default=0)
        self.last = max((it.address + len(it.data) for it in module.segments), default=0)
        self.need_constant_data()
        self.places = self.places_in_data()
        if self.places and not is_program:
            raise Refused("data with addresses in them")
        count = len(module.imports)
        names = [f"import_{name}" for name, _ in module.imports] + [f"f{count + at}" for at in range(len(module.bodies))]
        for name, index in module.exports.items():
            names[index] = prefix + name
        self.takes_heap = set() if is_program else those_that_reach(module, ALLOC)
        self.functions = [Function(module, count + at, names, self.takes_heap, self.place) for at in range(len(module.bodies))]

    def need_constant_data(self):
        """Refuses mutable data."""
        module = self.module
        written = [name for name in module.segment_names if not name.startswith(".rodata")]
        if written or len(module.segment_names) != len(module.segments) or module.end_of_data is None or module.segments and module.end_of_data > self.last:
            raise Refused(f"data that are not constant: {', '.join(written) or 'zeros, or data without a name'}")

    def places_in_data(self):
        """The offsets of addresses in the data. C has no constant for such an address on every machine."""
        offsets = sorted(self.module.places_in_data)
        found = [it.address + offset - it.offset - self.first for it in self.module.segments for offset in offsets if it.offset <= offset <= it.offset + len(it.data) - BYTES_OF_ADDRESS]
        if len(found) != len(offsets):
            raise Refused("an address that is not in the data")
        return found

    def place(self, address):
        if not self.module.segments or not self.first - BEFORE_DATA <= address <= self.last:
            raise Refused(f"a place outside of the data: {address}")
        return f"DATA({address - self.first})"

    def takes_heap_by_name(self, name):
        return self.module.exports[name] in self.takes_heap

    def data(self):
        if not self.module.segments:
            return ""
        whole = bytearray(self.last - self.first)
        for it in self.module.segments:
            whole[it.address - self.first:it.address - self.first + len(it.data)] = it.data
        for at in self.places:
            whole[at:at + BYTES_OF_ADDRESS] = self.distance(whole[at:at + BYTES_OF_ADDRESS]).to_bytes(BYTES_OF_ADDRESS, "little")
        constant = "" if self.places else "const "
        return f"static SIXTEEN {constant}u8 data[] = {{\n{in_lines(whole)}\n}};\n" + (PUT_ADDRESSES % in_lines(self.places) if self.places else "")

    def distance(self, address):
        """The offset of an address in the data."""
        found = int.from_bytes(address, "little") - self.first
        if not 0 <= found <= self.last - self.first:
            raise Refused(f"an address outside of the data: {found + self.first}")
        return found

    def text(self):
        bodies = [it.written() for it in self.functions]
        heads = [f"{it.signature()};" for it in self.functions]
        return "\n".join([self.data(), *heads, "", "\n\n".join(bodies), ""])
