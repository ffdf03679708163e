"""Whether a byte that one step stores was made of a byte that an earlier step loaded: followed through the steps between."""
import re

POINTERS = {"X": 26, "Y": 28, "Z": 30}
TWO_REGISTERS = ("add", "adc", "sub", "sbc", "and", "or", "eor")


def register(text):
    return int(re.match(r"r(\d+)", text)[1])


def address_of(name, operands, sp, registers):
    """The data address that an instruction loads from or stores to, or nothing where it does neither."""
    if name in ("push", "pop"):
        return sp if name == "push" else sp + 1
    if name in ("in", "out"):
        return int(operands[name == "in"], 16) + 0x20
    if name in ("lds", "sts"):
        return int(operands[name == "lds"], 16) & 0xFFFF
    if name in ("ld", "ldd", "st", "std"):
        sign, pointer, distance = re.match(r"(-?)([XYZ])\+?(\d*)", operands[name in ("ld", "ldd")]).groups()
        low = POINTERS[pointer]
        return (registers[low] + 256 * registers[low + 1] - len(sign) + int(distance or 0)) & 0xFFFF
    return None


class Derived:
    """The registers and bytes of memory that derive from some bytes of memory. They do so too where a part is changed or added."""

    def __init__(self, addresses):
        self.registers, self.addresses, self.flag = set(), set(addresses), False

    def put(self, where, what, is_derived):
        (where.add if is_derived else where.discard)(what)

    def step(self, name, operands, address):
        """Follows an instruction, which reaches this data address if it reaches any."""
        if address is not None and name in ("push", "sts", "st", "std", "out"):
            self.put(self.addresses, address, register(operands[-1]) in self.registers)
        elif address is not None:
            self.put(self.registers, register(operands[0]), address in self.addresses)
        elif name in ("ldi", "lpm", "elpm"):
            self.put(self.registers, register(operands[0] or "r0"), False)
        elif name in ("mov", "movw"):
            for more in (0, 1) if name == "movw" else (0,):
                self.put(self.registers, register(operands[0]) + more, register(operands[1]) + more in self.registers)
        elif name in TWO_REGISTERS:
            self.combine(name, *map(register, operands))
        elif name.startswith(("mul", "fmul")):
            for product in (0, 1):
                self.put(self.registers, product, not self.registers.isdisjoint(map(register, operands)))
        elif name == "bst":
            self.flag = register(operands[0]) in self.registers
        elif name == "bld" and self.flag:
            self.registers.add(register(operands[0]))

    def combine(self, name, to, other):
        if to == other and name in ("sub", "sbc", "eor"):
            self.registers.discard(to)
        elif other in self.registers:
            self.registers.add(to)


def is_derived(rows, code, pauses, addresses):
    """Whether the last step of these rows of `tkwatch trace` stores what derives from these bytes, with flag I set before it, or before
    another step behind the first. The steps of the pauses are a handler's."""
    derived, is_open = Derived(addresses), False
    for index, (_, step, pc, sp, sreg, *registers) in enumerate(rows):
        if any(first <= int(step) + 1 <= last for first, last in pauses):
            is_open = True
            continue
        is_open = is_open or index > 0 and int(sreg, 16) >= 0x80
        name, operands = code.instructions.get(int(pc, 16), ("", [""]))
        if index == len(rows) - 1:
            return is_open and register(operands[-1]) in derived.registers
        derived.step(name, operands, address_of(name, operands, int(sp, 16), [int(word, 16) for word in registers]))
    return False
