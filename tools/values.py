"""The values that the variables of an ELF file are made of, by its DWARF: each a variable, an element of an array or a member of a struct,
of a basic type or a pointer."""
import collections
import re

from history import DATA, DATA_BYTES, FIRST_MEMORY, Refused
from inputs import lines_of

# Where it lies, how many bytes it has, and its name; and the struct that it is a member of, which has no size here.
Value = collections.namedtuple("Value", "address size name whole")
Entry = collections.namedtuple("Entry", "tag attributes children")

NAMES_OF_TYPES = "DW_TAG_typedef", "DW_TAG_volatile_type", "DW_TAG_const_type"
STRUCTS = "DW_TAG_structure_type", "DW_TAG_union_type", "DW_TAG_class_type"
MEMBERS = "DW_TAG_member", "DW_TAG_inheritance"


def entries_of(elf):
    """The entries of DWARF by their offsets."""
    entries, above = {}, []
    for line in lines_of("avr-objdump", "--dwarf=info", elf):
        head = re.match(r"\s*<([0-9a-f]+)><([0-9a-f]+)>: Abbrev Number: \d+ \((\w+)\)", line)
        attribute = re.match(r"\s*<[0-9a-f]+>\s+(DW_AT_\w+)\s*: ?(.*)", line)
        if head:
            depth, offset = int(head[1], 16), int(head[2], 16)
            entries[offset] = Entry(head[3], {}, [])
            del above[depth:]
            if above:
                above[-1].children.append(offset)
            above.append(entries[offset])
        elif attribute and above:
            above[-1].attributes[attribute[1]] = attribute[2].strip()
    return entries


class Types:
    """The entries of DWARF, and what they say of variables."""

    def __init__(self, elf):
        self.entries = entries_of(elf)

    def linked(self, entry, attribute):
        """The entry that an attribute leads to, as that of a type."""
        offset = re.search(r"<0x([0-9a-f]+)>", entry.attributes.get(attribute, ""))
        return self.entries.get(int(offset[1], 16)) if offset else None

    def length(self, array):
        """How many elements an array has, over all of its dimensions."""
        length = 1
        for child in array.children:
            length *= number_of(self.entries[child], "DW_AT_upper_bound", -1) + 1
        return length

    def size(self, entry):
        if entry is None:
            return 0
        if "DW_AT_byte_size" in entry.attributes:
            return number_of(entry, "DW_AT_byte_size")
        inner = self.size(self.linked(entry, "DW_AT_type"))
        return self.length(entry) * inner if entry.tag == "DW_TAG_array_type" else inner

    def values(self, entry, address, name, whole=None):
        """The values that a variable of this type has."""
        inner = entry and self.linked(entry, "DW_AT_type")
        if entry and inner and entry.tag in NAMES_OF_TYPES:
            yield from self.values(inner, address, name, whole)
        elif entry and inner and entry.tag == "DW_TAG_array_type":
            size = max(self.size(inner), 1)
            for at in range(address, min(address + size * self.length(entry), DATA_BYTES), size):
                yield from self.values(inner, at, name + "[]")
        elif entry and entry.tag in STRUCTS:
            for member in map(self.entries.get, entry.children):
                if member.tag in MEMBERS and "DW_AT_declaration" not in member.attributes:
                    yield from self.member_values(member, address, name, whole or Value(address, 0, name, None))
        else:
            yield Value(address, max(self.size(entry), 1), name, whole)

    def member_values(self, member, address, name, whole):
        """Those of a member. Bit fields are read and written by bytes, which have the name of the struct."""
        offset = re.search(r"DW_OP_plus_uconst: (\d+)", member.attributes.get("DW_AT_data_member_location", ""))
        address += int(offset[1]) if offset else number_of(member, "DW_AT_data_member_location")
        if "DW_AT_bit_size" not in member.attributes:
            inner = text_of(member, "DW_AT_name")
            return self.values(self.linked(member, "DW_AT_type"), address, f"{name}.{inner}" if inner else name, whole)
        return (Value(at, 1, name, whole) for at in range(address, address + self.size(member)))

    def variables(self):
        """Each variable that has an address in memory: that, its type, and its name."""
        for entry in self.entries.values():
            address = re.search(r"DW_OP_addr: ([0-9a-f]+)", entry.attributes.get("DW_AT_location", ""))
            if entry.tag != "DW_TAG_variable" or not address or int(address[1], 16) < DATA + FIRST_MEMORY:
                continue
            declared = self.linked(entry, "DW_AT_specification") or self.linked(entry, "DW_AT_abstract_origin") or entry
            yield int(address[1], 16) - DATA, self.linked(declared, "DW_AT_type"), text_of(declared, "DW_AT_name")


def number_of(entry, attribute, otherwise=0):
    number = re.match(r"0x[0-9a-f]+|\d+", entry.attributes.get(attribute, ""))
    return int(number[0], 0) if number else otherwise


def text_of(entry, attribute):
    return re.sub(r"^\(indirect string.*?\): ", "", entry.attributes.get(attribute, ""))


def values_of(elf):
    """The value that each byte of a variable belongs to, by the byte's address. Of a variable that has no type, as of a library's, up to
    four bytes are one value, and of a larger one each byte is."""
    values, typed, types = {}, {}, Types(elf)
    if not any(entry.tag == "DW_TAG_subprogram" for entry in types.entries.values()):
        raise Refused(f"{elf} has no types of its variables: compile it with -gdwarf-2")
    for words in map(str.split, lines_of("avr-nm", "-S", elf)):
        if len(words) == 4 and words[2] in "bBdDvV" and int(words[0], 16) >= DATA + FIRST_MEMORY:
            address, size = int(words[0], 16) - DATA, int(words[1], 16)
            for at in range(address, address + size):
                values[at] = Value(address, size, words[3], None) if size <= 4 else Value(at, 1, words[3] + "[]", None)
    for address, kind, name in types.variables():
        for value in types.values(kind, address, name):
            for at in range(value.address, value.address + value.size):
                # Of the members of a union it is the largest.
                if at not in typed or typed[at].size < value.size:
                    typed[at] = value
    return {**values, **typed}
