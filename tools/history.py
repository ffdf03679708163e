"""What a program's run is, step by step, by the views of tkwatch: what tools/debug shows. What was told once is kept."""
import bisect
import functools
import os
import re
import shlex
import struct
import subprocess

BOUND = 100_000_000  # how many steps tools/debug can look at, if --steps doesn't say it
MOST_PLACES, MOST_BYTES = 16, 64  # what `tkwatch visits` and `tkwatch changes` take at most
MOST_RANGES = 16  # of bytes that are watched, each by a call of its own
MOST_LISTINGS = 40  # what is kept of single steps, each by a call that may wait until more of it is wanted
MOST_AT_ONCE = 8  # calls that are begun before the first of them is read
PIECE = 2048  # how many rows of a trace are kept together
NEAR = 65_536  # a call for one step goes up to a multiple of this, so that it serves the steps around as well
BLOCK = 65_536  # how many bytes of a view are read at once, as many as a pipe holds

FLASH_BYTES, DATA, DATA_BYTES = 0x20000, 0x800000, 0x10000  # gdb's addresses of data begin at DATA
FIRST_MEMORY = 0x0100  # below it are registers
SP_ADDRESS, SREG_ADDRESS = 0x5D, 0x5F
# The registers whose content is told by the device lines: what was written last stands in them.
PORTS = {0x31: "DDRD", 0x32: "PORTD", 0x34: "DDRC", 0x35: "PORTC", 0x37: "DDRB", 0x38: "PORTB", 0x3A: "DDRA", 0x3B: "PORTA"}


class Refused(Exception):
    """What can't be begun, or done: told in one line on standard error."""


class Program:
    """A program whose run is shown by the views of tkwatch."""

    def __init__(self, tkwatch, path, options, bound=BOUND):
        self.tkwatch, self.path = tkwatch, path
        self.judge_options(options)
        words = " ".join(options).replace("=", " ").split()
        values = dict(zip(words[::2], words[1::2]))
        self.bound = int(values.pop("--steps", bound))
        self.options = [word for option in values.items() for word in option]
        self.end, self.stop = None, ""  # how many steps the run has, and its stop line, once a view came so far
        self.wait_for = lambda stream: None
        self.judge_input()

    def judge_options(self, options):
        """Wrong options are refused whatever the input is, and others come to it: here it is empty."""
        status, line = self.answer(["lines", *options], os.devnull)
        if status == 4:
            raise Refused(f"run doesn't take these options: {shlex.join(options)}")
        if status != 3:
            raise Refused(f'tkwatch ended by status {status}: "{line}"')

    def judge_input(self):
        """An input that is refused is so before the first step."""
        status, line = self.answer(["lines", "--steps", "0", *self.options], self.path)
        if status == 3:
            raise Refused(f'the program or its script is refused by "{line}": tools/why-line explains it')
        if " steps " not in line:
            raise Refused(f'tkwatch ended by status {status}: "{line}"')

    def answer(self, words, path):
        """The status of a call of tkwatch, and the last line that it prints."""
        with open(path, "rb") as text:
            run = subprocess.run([self.tkwatch, *words], stdin=text, stdout=subprocess.PIPE, check=False)
        return run.returncode, (run.stdout.decode("latin1").splitlines() or [""])[-1]

    def view(self, *words, steps):
        """What a view shows of the first steps."""
        return View(self, words, min(steps, self.bound))

    def note_end(self, line, steps):
        """Keeps the end of the run, if this stop line is that, and not only as far as was asked for."""
        numbers = re.search(r" steps (\d+) checkpoints \d+$", line)
        if numbers is None:
            raise Refused(f'tkwatch ended by "{line}"')
        if not line.startswith("spent") or steps >= self.bound:
            self.end, self.stop = int(numbers[1]), line


class View:
    """A call of tkwatch: it goes ahead by itself, as far as a pipe holds what it tells, and its rows come in blocks of whole lines."""

    def __init__(self, program, words, steps):
        self.program, self.steps = program, steps
        call = [program.tkwatch, *words, "--steps", str(steps), *program.options]
        with open(program.path, "rb") as text:
            # In a session of its own, since the terminal's interrupt is for gdb.
            self.run = subprocess.Popen(call, stdin=text, stdout=subprocess.PIPE, start_new_session=True)
        self.blocks = self.read()

    def __iter__(self):
        return self.blocks

    def read(self):
        """Reads the blocks, and the stop line, which is no row."""
        rest, stop = b"", b""
        try:
            while True:
                self.program.wait_for(self.run.stdout)
                more = os.read(self.run.stdout.fileno(), BLOCK)
                if not more:
                    break
                whole, line_end, rest = (rest + more).rpartition(b"\n")
                at = whole.rfind(b"\n") + 1
                if line_end and not whole.startswith((b"step ", b"0x"), at):
                    whole, stop = whole[:at], whole[at:]
                else:
                    whole += line_end
                if whole:
                    yield whole
            self.program.note_end(stop.decode("latin1"), self.steps)
        finally:
            self.close()

    def close(self):
        """Breaks it off, where no more of it is wanted."""
        self.run.kill()
        self.run.stdout.close()
        self.run.wait()


class Listing:
    """The rows of a view that tells of single steps, from the first step on as far as they were wanted. They are read off one call of
    tkwatch, which waits while no more are. The last 8 MiB of them are held, as text, in blocks that are taken apart when one is
    looked for."""

    MOST_HELD = 8 << 20

    def __init__(self, program, words):
        self.program, self.words = program, words
        self.view = None
        self.forget()

    def forget(self):
        """Begins anew."""
        if self.view is not None:
            self.view.close()
        self.view = None
        self.blocks, self.firsts, self.lasts = [], [], []  # texts, and the steps of their first and last rows
        self.held_from = 0  # all rows from this step on are held,
        self.known = -1  # up to this one

    def start(self, limit, reach):
        """Has rows come up to a limit, by a call up to `reach` if it is a new one."""
        if self.known < limit and self.view is None:
            self.forget()
            self.view = self.program.view(*self.words, steps=reach)

    def start_ahead(self, step, reach):
        """The same, while other rows are read, where none of a step behind this one is held."""
        if not self.lasts or self.lasts[-1] <= step:
            self.start(reach, reach)

    def read_on(self):
        """Reads a block more. Where gdb interrupts that, the call is over."""
        view, self.view = self.view, None
        for block in view:
            self.view = view
            return self.add(block)
        end = self.program.end
        self.known = view.steps if end is None or view.steps < end else self.program.bound

    def learn(self, limit, reach):
        """Reads all rows up to a limit."""
        while self.known < limit:
            self.start(limit, reach)
            self.read_on()

    def add(self, text):
        """Holds a block more, and lets the oldest go. Rows of one step stay together."""
        first, last = step_of(text, 0), step_of(text, text.rfind(b"\n", 0, -1) + 1)
        if self.blocks and (len(self.blocks[-1]) + len(text) <= BLOCK or first == self.lasts[-1]):
            self.blocks[-1] += text
            self.lasts[-1] = last
        else:
            self.blocks.append(text)
            self.firsts.append(first)
            self.lasts.append(last)
        self.known = last - 1  # of the last step more rows may follow
        while len(self.blocks) * BLOCK > self.MOST_HELD:
            del self.blocks[0], self.firsts[0], self.lasts[0]
            self.held_from = self.firsts[0]

    def rows(self, step, limit, reach):
        """The rows of the steps behind so many, up to a limit, from a run up to `reach` if one more is wanted."""
        if step + 1 < self.held_from:
            self.forget()
        while True:
            at = bisect.bisect_right(self.lasts, step)
            if at < len(self.blocks):
                last, rows = self.lasts[at], rows_of(self.blocks[at])
                for row in rows[bisect.bisect_left(rows, (step + 1,)) :]:
                    if row[0] > limit:
                        return
                    yield row
                step = last
            elif self.known >= limit:
                return
            else:
                self.start(limit, reach)
                self.read_on()

    def start_before(self, step):
        """Has the rows before a step come, by a run that ends there, where they aren't held and don't come already."""
        held = self.known >= step - 1 and (self.held_from == 0 or self.held_from < step)
        if not held and (self.view is None or self.view.steps != step - 1):
            self.forget()
            self.start(step - 1, step - 1)

    def before(self, step):
        """The last row before a step."""
        self.start_before(step)
        self.learn(step - 1, step - 1)
        at = bisect.bisect_left(self.firsts, step) - 1
        if at < 0:
            return None
        rows = rows_of(self.blocks[at])
        return rows[bisect.bisect_left(rows, (step,)) - 1]


def step_of(text, at):
    """The step of the row that begins there."""
    return int(text[at + 5 : text.index(b" ", at + 5)])


@functools.lru_cache(maxsize=8)
def rows_of(text):
    """The rows of a block: the step, and the words behind it. The next question is mostly of the same block."""
    return [(int(words[1]), words[2:]) for words in map(str.split, text.decode("latin1").splitlines())]


def keep(store, key, value, most):
    """Keeps a value, and forgets the oldest where there are too many."""
    store[key] = value
    while len(store) > most:
        store.pop(next(iter(store)))
    return value


class History:
    """What stood behind each number of steps, and at which steps something happened. What was told once isn't asked for again."""

    def __init__(self, program):
        self.program = program
        self.pieces, self.memories, self.listings = {}, {}, {}
        self.asked = {}  # bytes that were asked for, and near which steps

    def listing(self, *words):
        """What a view tells of single steps. The oldest goes where there are too many, and its call with it."""
        if words in self.listings:
            return self.listings[words]
        if len(self.listings) == MOST_LISTINGS:
            self.listings.pop(next(iter(self.listings))).forget()
        self.listings[words] = Listing(self.program, words)
        return self.listings[words]

    def close(self):
        for listing in self.listings.values():
            listing.forget()

    def near(self, step):
        """Up to where a call goes that is made for this step, since the next ones are wanted soon."""
        return min((step // NEAR + 2) * NEAR, self.program.bound)

    def piece(self, number):
        """The rows of a trace from a multiple of PIECE on, as texts. The piece before comes with them, since one steps back as well."""
        if number not in self.pieces:
            first = number - 1 if number > 0 and number - 1 not in self.pieces else number
            count = (number + 1 - first) * PIECE
            words = ["trace", str(first * PIECE), str(count)]
            rows = b"".join(self.program.view(*words, steps=first * PIECE + count - 1)).splitlines()
            for each in range(first, number + 1):
                keep(self.pieces, each, rows[: PIECE], 32)
                del rows[: PIECE]
        return self.pieces[number]

    def core(self, step):
        """pc, stack pointer, SREG and r0 to r31 behind so many steps, or nothing where the run has fewer."""
        rows = self.piece(step // PIECE)
        at = step % PIECE
        return [int(word, 16) for word in rows[at].split()[2:]] if at < len(rows) else None

    def memory(self, step):
        """The bytes of memory behind so many steps."""
        if step in self.memories:
            return self.memories[step]
        memory = bytearray(DATA_BYTES)
        for line in b"".join(self.program.view("memory", steps=step)).splitlines():
            at, *row = [int(word, 16) for word in line.split()]
            memory[at : at + 16] = bytes(row)
        return keep(self.memories, step, memory, 16)

    def port(self, name, step):
        """What was last written to a port, 0 if nothing was."""
        value = 0
        for _, (port, written) in self.listing("lines").rows(0, step, self.near(step)):
            if port == name:
                value = int(written, 16)
        return value

    def register(self, step, at):
        """What stands in a register behind so many steps, by its data address, or nothing where no view tells it."""
        _, sp, sreg, *registers = self.core(step)
        if at < len(registers):
            return registers[at]
        if at in PORTS:
            return self.port(PORTS[at], step)
        return {SP_ADDRESS: sp % 256, SP_ADDRESS + 1: sp // 256, SREG_ADDRESS: sreg}.get(at)

    def data(self, step, at, count):
        """The bytes from a data address on behind so many steps, up to the first that no view tells."""
        found = bytearray()
        for register in range(at, min(at + count, FIRST_MEMORY)):
            byte = self.register(step, register)
            if byte is None:
                return found
            found.append(byte)
        at, count = at + len(found), min(at + count, DATA_BYTES) - at - len(found)
        return found + self.bytes(step, at, count) if count > 0 else found

    def bytes(self, step, at, count):
        """The bytes of memory from an address on. Where they are asked for again near a step whose whole memory is held, it is the
        changes between that give them, which tell of many steps at once."""
        asked = step // NEAR, at, count
        held = min((other for other in self.memories if other // NEAR == asked[0]), key=lambda other: abs(other - step), default=step)
        if asked in self.asked and held != step and count <= MOST_BYTES:
            low, high = sorted((held, step))
            changes = self.changes(at, count)
            changes.learn(high, self.near(high))
            if changes.held_from <= low:
                return self.changed_bytes(list(changes.rows(low, high, high)), held < step, at, self.memory(held)[at : at + count])
        keep(self.asked, asked, True, 1000)
        return self.memory(step)[at : at + count]

    def changed_bytes(self, rows, is_later, at, found):
        """These bytes behind the steps of the rows, or before them."""
        for _, (_, address, before, behind) in rows if is_later else reversed(rows):
            found[int(address, 16) - at] = int(behind if is_later else before, 16)
        return found

    def lines(self, step, limit, reach):
        """The device lines behind so many steps, up to a limit."""
        for at, words in self.listing("lines").rows(step, limit, reach):
            yield at, f"step {at} {' '.join(words)}"

    def visits_at_hand(self, steps, places):
        """The first of these steps behind which the program stands at one of the places, among those that are in pieces at hand, and
        how far they reach."""
        reached = None
        for step in steps:
            rows = self.pieces.get(step // PIECE, [])
            if step % PIECE >= len(rows):
                return None, reached
            if int(rows[step % PIECE].split(None, 3)[2], 16) in places:
                return step, step
            reached = step
        return None, reached

    def next_stop(self, step, places, ranges, limit):
        """The first number of steps above this one, up to a limit, behind which the program stands at one of the places, or that
        changed a byte of the ranges; and the address of that byte. Where several views are asked, they are asked of some steps
        first, and then of more, since one may have a stop at once that another never has."""
        found, reached = self.visits_at_hand(range(step + 1, limit + 1), places)
        if found is not None:
            return self.next_change(step, ranges, found, self.near(found)) or (found, None)
        views = [self.visits(some) for some in parts(sorted(places), MOST_PLACES)] + [self.changes(*some) for some in ranges]
        for reach in self.reaches(step, limit) if len(views) > 1 else [limit]:
            for view in views if len(views) <= MOST_AT_ONCE else []:
                view.start_ahead(step, reach)
            visit = self.next_visit(step if reached is None else reached, places, reach)
            change = self.next_change(step, ranges, reach if visit is None else visit, reach)
            if change is not None or visit is not None:
                return change or (visit, None)
        return None

    def reaches(self, step, limit):
        """Numbers of steps above this one, the same ones for each, up to the limit or the end of the run."""
        reach = 2 * NEAR
        while reach < limit and (self.program.end is None or reach < self.program.end):
            if reach > step:
                yield reach
            reach *= 8
        yield limit

    def next_visit(self, step, places, limit):
        """The same of places alone, by their views."""
        found = None
        if self.program.end is None or step < self.program.end:
            for some in parts(sorted(places), MOST_PLACES):
                row = next(self.visits(some).rows(step, limit, limit), None)
                if row is not None:
                    found = limit = row[0]
        return found

    def last_visit(self, step, places):
        """The last number of steps below this one behind which the program stands at one of the places."""
        found, reached = self.visits_at_hand(range(step - 1, -1, -1), places)
        if found is None:
            step = step if reached is None else reached
            rows = last_rows([self.visits(some) for some in parts(sorted(places), MOST_PLACES)], step)
            found = max((row[0] for row in rows if row is not None), default=None)
        return found

    def visits(self, places):
        return self.listing("visits", *[f"0x{place:04X}" for place in places])

    def next_change(self, step, ranges, limit, reach):
        """The first step behind so many, up to a limit, that changes a byte of the ranges, and its address."""
        found = None
        for at, count in ranges:
            row = next(self.changes(at, count).rows(step, limit, reach), None)
            if row is not None and (found is None or row[0] < found[0]):
                found = row[0], int(row[1][1], 16)
                limit = row[0]
        return found

    def last_change(self, step, ranges):
        """The last step up to this one that changes a byte of the ranges, and its address."""
        rows = last_rows([self.changes(at, count) for at, count in ranges], step + 1)
        return max(((row[0], int(row[1][1], 16)) for row in rows if row is not None), default=None)

    def start_changes(self, step, ranges):
        """Has the changes up to a step come, while other rows are read."""
        start_rows([self.changes(at, count) for at, count in ranges], step + 1)

    def changes(self, at, count):
        return self.listing("changes", f"0x{at:04X}", str(count))


def start_rows(listings, step):
    """Has the rows of these listings before a step come at once, unless they are too many."""
    if len(listings) <= MOST_AT_ONCE:
        for listing in listings:
            listing.start_before(step)


def last_rows(listings, step):
    """The last row of each listing before a step."""
    start_rows(listings, step)
    return [listing.before(step) for listing in listings]


def parts(row, most):
    """The row in parts of at most so many."""
    return [row[at : at + most] for at in range(0, len(row), most)]


def ranges_of(watched):
    """The bytes that are watched, as ranges of adjacent ones, each of as many at most as one call of tkwatch watches."""
    ranges = []
    for address in sorted({address for at, count in watched for address in range(at, at + count)}):
        if ranges and address == sum(ranges[-1]) and ranges[-1][1] < MOST_BYTES:
            ranges[-1] = ranges[-1][0], ranges[-1][1] + 1
        else:
            ranges.append((address, 1))
    return ranges


def flash_of(path):
    """The bytes of flash by the HEX text in front of an input."""
    flash, base = bytearray(b"\xff" * FLASH_BYTES), 0
    with open(path, encoding="latin1") as text:
        for line in map(str.strip, text):
            if not line:
                continue
            count, at, kind, *content = struct.unpack(">BHB", bytes.fromhex(line[1:9])) + tuple(bytes.fromhex(line[9:-2]))
            if kind == 0:
                flash[base + at : base + at + count] = bytes(content)
            elif kind == 1:
                break
            elif kind in (2, 4):
                base = (content[0] * 256 + content[1]) << (4 if kind == 2 else 16)
    return flash
