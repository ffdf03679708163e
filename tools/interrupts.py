"""Which steps of a run are a handler's, and which are other code's, by the views `accesses` and `visits` of tkwatch."""
import bisect
import os
import re
import subprocess

from history import DATA, Program, Refused
from inputs import TOOLS, find_tkwatch, lines_of, make_input, wants_elf, wants_script

VECTORS = {2 * number + 2: f"INT{number}_vect" for number in range(8)}  # by their word addresses
FIRST, LAST = 0x0020, 0x10FF  # from the first I/O register to the last byte of the stack window: what `accesses` is asked for
STEPS = 1_000_000  # how many `run` does if --steps doesn't say it
RAMPZ = 0x5B
KEPT = 1000  # how many handlers that interrupted it each activation keeps


class Code:
    """The functions and the instructions of an ELF file, by word addresses, and its handlers."""

    def __init__(self, elf):
        self.functions, self.instructions = {}, {}  # the functions by names
        for words in (line.split(None, 2) for line in lines_of("avr-nm", "-C", elf)):
            if len(words) == 3 and words[1] in "tTwW" and int(words[0], 16) < DATA:
                self.functions[words[2]] = int(words[0], 16) // 2
        for line in lines_of("avr-objdump", "-d", elf):
            found = re.match(r"\s*([0-9a-f]+):\t(?:[0-9a-f]{2} )+\s*\t([a-z]+)\s*([^;]*)", line)
            if found:
                self.instructions[int(found[1], 16) // 2] = found[2], [word.strip() for word in found[3].split(",")]
        self.names = {0: ["__vectors"]}  # all that the function at a place is called in the source
        for name, place in self.functions.items():
            self.names.setdefault(place, []).append(in_source(name))
        self.starts = sorted(self.names)
        default = self.functions.get("__bad_interrupt")
        self.handlers = {}  # the places of their functions, by the names of their vectors
        for number, name in enumerate(VECTORS.values(), 1):
            place = self.functions.get(f"__vector_{number}", default)
            if place != default:
                self.handlers[name] = place
        self.has_handlers = bool(self.handlers) or self.functions.get("__vector_default", 0) != 0

    def function(self, pc):
        """The place of the function that has an instruction."""
        return self.starts[bisect.bisect_right(self.starts, pc) - 1]

    def stack_users(self):
        """What uses the stack by itself, by addresses as a view has them. A call of the next word makes room there as PUSH does."""
        users = {}
        for pc, (name, operands) in self.instructions.items():
            if name in ("push", "pop", "ret", "reti") or name.endswith("call"):
                users[f"0x{pc:04X}"] = "push" if operands == [".+0"] else "call" if name.endswith("call") else name
        return users


class Lines:
    """The functions and lines of instructions, by avr-addr2line, which is asked for one after another. In which file it is to look is told
    by places.sh, since it tells wrong lines where the linker removed functions."""

    def __init__(self, elf, folder):
        self.known = {}
        look = '. "${0%/*}/common.sh"; . "${0%/*}/places.sh"; find_lines "$1"; printf %s "$lined_elf"'
        found = subprocess.run(["sh", "-c", look, f"{TOOLS}/races", elf], stdout=subprocess.PIPE, env={**os.environ, "work": folder}, check=False)
        if found.returncode != 0:
            raise Refused(f"the lines of {elf} can't be read")
        lined = found.stdout.decode()
        self.asked = subprocess.Popen(["avr-addr2line", "-C", "-f", "-e", lined], stdin=subprocess.PIPE, stdout=subprocess.PIPE)

    def of(self, pc):
        """The function, by its name in the source, and the file and line. A handler has the name of its vector."""
        if pc not in self.known:
            self.asked.stdin.write(b"%x\n" % (2 * pc))
            self.asked.stdin.flush()
            name, place = (self.asked.stdout.readline().decode("utf-8", "replace").strip() for _ in range(2))
            self.known[pc] = in_source(name), re.sub(r" \(discriminator \d+\)$", "", os.path.basename(place))
        return self.known[pc]

    def close(self):
        self.asked.stdin.close()
        self.asked.stdout.close()
        self.asked.wait()


def in_source(name):
    """The name that a function has in the source, by that of a symbol."""
    number = re.fullmatch(r"__vector_([1-8])", name)
    if number:
        return f"INT{int(number[1]) - 1}_vect"
    return "BADISR_vect" if name == "__vector_default" else re.sub(r"(.)( \[clone )?\..*", r"\1", name)


class Activation:
    """One activation of a handler, or all code outside of handlers, whose vector is nothing."""

    def __init__(self, vector=None, began=0, pc=0, sp=0, outer=None):
        self.vector = vector
        self.began, self.pc, self.sp = began, pc, sp  # the step of its interrupt, and what stood before that
        self.outer = outer  # what it interrupted
        self.away = 0  # how many steps were those of handlers that interrupted it,
        self.pauses = []  # and the first and last step of each
        self.calls = []  # the calls whose return addresses are on the stack: their addresses, and the pc of the call
        self.parts, self.loads = {}, {}  # what tools/races has of its last accesses

    def interrupted(self):
        """The vectors of the handlers that it interrupted, and of those that they did."""
        outer = self.outer
        while outer is not None:
            yield outer.vector
            outer = outer.outer

    def time(self, step):
        """How many steps were done but for those of handlers that interrupted it."""
        return step - self.away

    def pause(self, first, last):
        self.away += last - first + 1
        self.pauses.append((first, last))
        del self.pauses[:-KEPT]

    def pauses_behind(self, step):
        return self.pauses[bisect.bisect_right(self.pauses, (step, step)) :]

    def call(self, sp, pc):
        """Notes a call. One that lies below it on the stack has returned, however it did."""
        self.leave(sp)
        self.calls.append((sp, pc))

    def leave(self, sp):
        """Forgets the calls whose return addresses lie at this address or below it."""
        while self.calls and self.calls[-1][0] <= sp:
            self.calls.pop()

    def caller(self):
        return self.calls[-1][1] if self.calls else None


class Run:
    """A program's run, by its ELF file, a script and options, which are looked at first; and the interrupts that it takes."""

    def __init__(self, elf, script, options, folder):
        wants_elf(elf)
        wants_script(script)
        self.elf, self.code = elf, Code(elf)
        tkwatch, path = find_tkwatch(), f"{folder}/input"
        make_input(elf, script, path)
        self.program = Program(tkwatch, path, options, STEPS)
        if not self.code.has_handlers:
            raise Refused(f"{elf} has no handler of INT0 to INT7")
        self.began = dict.fromkeys(self.code.handlers, 0)  # how often each handler began
        self.entries, self.restarts = {}, []  # the vectors by the steps of interrupts, and the steps that led to word 0
        self.left = None  # a handler that never returned, the step at which it began, and one by which it was over
        places = [f"0x{place:04X}" for place in (0, *VECTORS)]
        for step, pc in ((int(words[1]), int(words[2], 16)) for words in self.view("visits", *places)):
            if pc:
                self.entries[step] = VECTORS[pc]
                self.began[VECTORS[pc]] = self.began.get(VECTORS[pc], 0) + 1
            elif step:
                self.restarts.append(step)
        if not self.entries:
            handlers = " and ".join(self.code.handlers) or "BADISR_vect"
            raise Refused(f"no interrupt was taken in this run, so nothing is told of {handlers}: {self.program.stop.strip()}")

    def lines(self, *words, steps=None):
        """The rows of a view."""
        for block in self.program.view(*words, steps=self.program.bound if steps is None else steps):
            yield from block.decode("latin1").splitlines()

    def view(self, *words, steps=None):
        """The rows of a view, each as its words."""
        return map(str.split, self.lines(*words, steps=steps))

    def events(self, wanted, last=LAST):
        """What happens, in order: (kind, step, pc, address, byte, SREG, activation). It is an access by an instruction that names one of
        the wanted addresses; or a handler's begin, or end, with the pc and the stack pointer before it, or behind it."""
        users, restarts = self.code.stack_users(), iter([*self.restarts, self.program.bound])
        texts = {f"0x{address:04X}": address for address in wanted}
        active, restart = [Activation()], next(restarts)  # the outermost first
        front = "", "", ""  # step, address and byte of the first of two bytes of a pc
        rows = self.view("accesses", f"0x{FIRST:04X}", str(last + 1 - FIRST))
        for _, step, pc, kind, address, byte, sreg in rows:
            user = "interrupt" if kind == "interrupt" else users.get(pc)
            if user is None and address not in texts:
                continue
            number = int(step)
            while number > restart:
                active, restart = [Activation()], next(restarts)
            if user is None:
                yield kind, number, int(pc, 16), texts[address], int(byte, 16), int(sreg, 16), active[-1]
            elif step != front[0]:
                front = step, address, byte
            elif user in ("interrupt", "call"):
                pushed, at = int(front[1], 16), int(pc, 16)
                self.leave_overwritten(active, pushed, number)
                if user == "call":
                    active[-1].call(pushed, at)
                else:
                    active.append(Activation(self.entries[number], number, at, pushed, active[-1]))
                    yield "begin", number, at, pushed, 0, int(sreg, 16), active[-1]
            elif len(active) > 1 and (user == "reti" or int(address, 16) == active[-1].sp):
                ended = active.pop()
                active[-1].pause(ended.began, number)
                yield "end", number, int(front[2] + byte[2:], 16), int(address, 16), 0, int(sreg, 16), ended
            else:
                active[-1].leave(int(address, 16))

    def leave_overwritten(self, active, pushed, step):
        """Ends the handlers whose return address is pushed over, as one that was left by longjmp."""
        while len(active) > 1 and abs(active[-1].sp - pushed) < 2:
            left = active.pop()
            active[-1].pause(left.began, step - 1)
            self.left = self.left or (left.vector, left.began, step)

    def notes(self):
        """What a tool says of a run beside its answer."""
        for name, times in self.began.items():
            if times == 0:
                yield f"{name} never began in this run, so nothing is told of it"
        if self.left:
            yield "{}, which began at step {}, didn't return: what follows up to step {} counts as its own".format(*self.left)
        if self.restarts:
            yield f"the program began again {times_of(len(self.restarts))}, first behind step {self.restarts[0]}: tools/run-elf tells more"

    def summary(self):
        """How often each handler began, and the stop line."""
        began = [f"{name} began {times_of(times)}" for name, times in self.began.items() if times]
        return f"{', '.join(began)}; {self.program.stop.strip()}"


def times_of(number):
    return "once" if number == 1 else f"{number} times"
