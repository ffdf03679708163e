"""What the tools in Python are given: a linked ELF file, a script, and the program tkwatch. What is wrong with one is `Refused`."""
import glob
import os
import re
import shutil
import signal
import struct
import subprocess
import sys

from history import Refused

TOOLS = os.path.dirname(os.path.realpath(__file__))


def find_tkwatch():
    """The built program, since the launcher takes its time each time; but it is the launcher that builds it, and says so."""
    named = os.environ.get("TKWATCH")
    launcher = named or os.path.join(TOOLS, os.pardir, "tkwatch")
    try:
        status = subprocess.run([launcher, "help"], stdin=subprocess.DEVNULL, stdout=subprocess.DEVNULL, check=False).returncode
    except OSError as error:
        raise Refused(f"{launcher} can't be run: {error.strerror}") from None
    if status != 0:
        raise Refused(f"{launcher} can't be run: it ended by status {status}")
    built = glob.glob(os.path.join(TOOLS, os.pardir, "crates", "tkwatch", "out", "built", "*", "tkwatch"))
    return built[0] if len(built) == 1 and named is None else launcher


def wants_file(path):
    if not (os.path.isfile(path) and os.access(path, os.R_OK)):
        raise Refused(f"{path} can't be read")


def wants_script(path):
    """A script may be a pipe as well."""
    if os.path.isdir(path) or not os.access(path, os.R_OK):
        raise Refused(f"{path} can't be read")


def wants_command(name):
    if shutil.which(name) is None:
        raise Refused(f"{name}, of binutils-avr, isn't on the path")


def lines_of(*command):
    """The lines that a program of binutils prints."""
    wants_command(command[0])
    run = subprocess.run(command, stdout=subprocess.PIPE, stderr=subprocess.PIPE, check=False)
    if run.returncode != 0:
        raise Refused(reason_of(run))
    return run.stdout.decode("utf-8", "replace").splitlines()


def reason_of(run):
    """The line by which a program refuses a file."""
    said = run.stderr.decode("utf-8", "replace").strip().splitlines()
    return said[0] if said else f"{run.args[0]} ended by status {run.returncode}"


def wants_elf(path):
    """Only a linked program for the ATmega128, as its head and the note of the start-up code say."""
    wants_file(path)
    with open(path, "rb") as file:
        elf = file.read()
    if elf[:6] != b"\x7fELF\x01\x01" or len(elf) < 52 or struct.unpack_from("<H", elf, 18)[0] != 83:
        raise Refused(f"{path} is no ELF file for AVR")
    if struct.unpack_from("<H", elf, 16)[0] != 2:
        raise Refused(f"{path} isn't linked")
    # The architecture stands in seven bits: avr51 is that of the ATmega128, and of some others.
    architecture, device = elf[36] & 0x7F, re.search(rb"\0(at[a-z]+[0-9][a-z0-9]*)\0", note_of(elf))
    if architecture != 51 or device and device[1] not in (b"atmega128", b"atmega128a"):
        raise Refused(f"{path} is for {device[1].decode() if device else f'avr{architecture}'}, and not for the ATmega128")


def note_of(elf):
    """The section in which the start-up code names its device, empty if there is none."""
    table, size, count, names = struct.unpack_from("<I", elf, 32) + struct.unpack_from("<HHH", elf, 46)
    try:
        heads = [struct.unpack_from("<IIIIII", elf, table + size * number) for number in range(count)]
        for name, _, _, _, offset, length in heads:
            if elf.startswith(b".note.gnu.avr.deviceinfo\0", heads[names][4] + name):
                return elf[offset : offset + length]
    except (struct.error, IndexError):
        pass
    return b""


def make_input(elf, script, path):
    """The program as Intel HEX, without the sections that are no program, and the script behind it."""
    wants_command("avr-objcopy")
    others = [word for name in (".eeprom", ".fuse", ".lock", ".signature") for word in ("-R", name)]
    made = subprocess.run(["avr-objcopy", "-O", "ihex", *others, "--", elf, path], stderr=subprocess.PIPE, check=False)
    if made.returncode != 0:
        raise Refused(reason_of(made))
    with open(path, "ab") as text, open(script, "rb") as more:
        shutil.copyfileobj(more, text)


def say(text):
    print(f"{os.path.basename(sys.argv[0])}: {text}", file=sys.stderr, flush=True)


def answer(usage, words, tell):
    """The status of a tool that is called with NAME.elf, a script and options: it prints the lines that are told of these, and has the
    status that is told with them. What fails is one line, or how the tool is used, and status 127."""
    for number in (signal.SIGINT, signal.SIGTERM, signal.SIGHUP):
        signal.signal(number, lambda *_: sys.exit(127))
    if words == ["--help"]:
        print(usage)
        return 0
    has_script = words[1:] and not words[1].startswith("-")
    script, options = (words[1], words[2:]) if has_script else (os.devnull, words[1:])
    if not words or words[0].startswith("-") or options and not options[0].startswith("-"):
        print(usage, file=sys.stderr)
        return 127
    try:
        if sys.stdout is None:
            raise Refused("standard output is closed")
        lines, status = tell(words[0], script, options)
        put(lines)
        return status
    except Refused as reason:
        say(reason)
    return 127


def put(lines):
    try:
        print("\n".join(lines), flush=True)
    except OSError as error:
        # What is left in the buffer would fail once more at the end.
        os.dup2(os.open(os.devnull, os.O_WRONLY), 1)
        raise Refused(f"standard output can't be written: {error.strerror}") from None
