#!/bin/sh
# Hostile inputs, outside the gate: runs the program on damaged files, random code, names that aren't files, outputs that
# fail, and files at each limit and one past it, and says how many runs ended with which status, and the greatest time of
# the processor and memory of one run. It ends with status 1 where a run ended in another way than with a status and a
# message, or past its limit: 20 seconds, or 600 for a file at a limit, and 3.4 GB.
#
#     bench/hostile.sh [EXECUTABLE] [COUNT]
#
# EXECUTABLE: what is damaged, examples/driver.elf if none is given; beside it stands its .assert. It is cut to each length, or to
# some 500 to 750 lengths where it has 1,000 bytes or more. COUNT: how many images of random code are tried, 200 if not given.
# BOUNDT: the program; else crates/boundt/out/boundt, which is proved and built first where it isn't there. LIMITS=no leaves out
# the files at a limit, which take some minutes, and LIMITS=only tries nothing else.
set -eu
cd "$(dirname "$0")/.."
boundt=${BOUNDT:-crates/boundt/out/boundt}
if [ ! -x "$boundt" ]; then
    (cd crates/boundt && rt run -- decode ../../examples/set_point.elf >/dev/null)
fi
exec python3 - "$boundt" "${1:-examples/driver.elf}" "${2:-200}" "${LIMITS:-yes}" <<'END'
import collections, os, random, re, resource, shutil, struct, subprocess, sys, tempfile, threading

PROGRAM, IMAGE, COUNT, LIMITS = os.path.abspath(sys.argv[1]), os.path.abspath(sys.argv[2]), int(sys.argv[3]), sys.argv[4]
ASSERTIONS, TABLE = IMAGE[: -len(".elf")] + ".assert", os.path.abspath("examples/erc32.cycles")
SECONDS, BYTES = 20, 3_400_000_000
MESSAGE = re.compile(rb"boundt: (\d+)( [A-Za-z0-9]+)*\n")


class Tally:
    """What was seen of the runs of one kind."""

    def __init__(self, name, seconds=SECONDS):
        self.name, self.limit = name, seconds
        self.runs, self.statuses, self.seconds, self.bytes, self.bad = 0, collections.Counter(), 0.0, 0, []

    def run(self, words, what="", expected=None, closed=(), **ends):
        """One run, with these of its three ends closed; what it writes is thrown away where `ends` gives no other place."""

        def begin():
            resource.setrlimit(resource.RLIMIT_CPU, (self.limit, self.limit))
            for end in closed:
                os.close(end)

        with tempfile.TemporaryFile() as errors:
            given = {"stdin": subprocess.DEVNULL, "stdout": subprocess.DEVNULL, "stderr": errors, **ends}
            child = subprocess.Popen([PROGRAM, *words], preexec_fn=begin, **given)
            # A run that waits for ever is ended too; other programs may want the processor, so it has much longer.
            timer = threading.Timer(20 * self.limit, child.kill)
            timer.start()
            _, status, used = os.wait4(child.pid, 0)
            timer.cancel()
            errors.seek(0)
            said = errors.read()
        code = os.waitstatus_to_exitcode(status)
        self.runs += 1
        self.statuses[code] += 1
        self.seconds = max(self.seconds, used.ru_utime + used.ru_stime)
        self.bytes = max(self.bytes, used.ru_maxrss * 1024)
        whole = MESSAGE.fullmatch(said)
        told = "stderr" in ends or 2 in closed or (not said if code in (0, 1) else whole is not None and int(whole[1]) == code)
        wanted = expected is None or said.decode() == (f"boundt: {expected}\n" if expected else "")
        if not 0 <= code <= 9 or not told or not wanted or used.ru_maxrss * 1024 > BYTES:
            self.bad.append(f"{what}: status {code}, {said[:80]!r}")

    def told(self):
        """One line of the table."""
        statuses = ", ".join(f"{code}: {n}" for code, n in sorted(self.statuses.items()))
        print(f"| {self.name} | {self.runs} | {statuses} | {self.seconds:.2f} | {self.bytes / 1e6:.0f} |", flush=True)
        for line in self.bad[:5]:
            print(f"  BAD: {line}", flush=True)
        return len(self.bad)


def header_bytes(data):
    """The places of the bytes of the header, of the sections' headers and of the symbol table."""
    offset, count = struct.unpack(">I", data[32:36])[0], struct.unpack(">H", data[48:50])[0]
    places = [*range(52), *range(offset, offset + 40 * count)]
    for n in range(count):
        fields = struct.unpack(">10I", data[offset + 40 * n : offset + 40 * n + 40])
        if fields[1] == 2:
            places += range(fields[4], fields[4] + fields[5])
    return places


def image(words, functions=(("f", 0),), symbols=0, sections=0):
    """Sound headers round words of code at 02000000: functions by name and word, further symbols, and further sections."""
    text, table, names = struct.pack(">%dI" % len(words), *words), bytes(16), b"\0"
    for name, word in functions:
        table += struct.pack(">IIIBBH", len(names), 0x02000000 + 4 * word, 4, 0x12, 0, 1)
        names += name.encode() + b"\0"
    table += bytes(16 * symbols)
    places = [52, 52 + len(text), 52 + len(text) + len(table)]
    out = b"\x7fELF\x01\x02\x01" + bytes(9)
    out += struct.pack(">HHIIIIIHHHHHH", 2, 2, 1, 0x02000000, 0, places[2] + len(names), 0, 52, 0, 0, 40, 4 + sections, 3)
    out += text + table + names + bytes(40) + struct.pack(">10I", 0, 1, 6, 0x02000000, 52, len(text), 0, 0, 4, 0)
    out += struct.pack(">10I", 0, 2, 0, 0, places[1], len(table), 3, 1, 4, 16)
    return out + struct.pack(">10I", 0, 3, 0, 0, places[2], len(names), 0, 0, 1, 0) + bytes(40 * sections)


def random_image(random, common):
    """Sound headers round random words of code; this part of them is drawn from common instructions."""
    known = [0x81C3E008, 0x01000000, 0x9DE3BFA0, 0x81C7E008, 0x81E80000, 0x12BFFFFE, 0x02800004, 0x7FFFFFFA, 0x40000004, 0x80A22005, 0x90022001,
             0x81C06000, 0xC2008001, 0x30800003, 0x9FC04000, 0x832A2002]
    return image([random.choice(known) if random.random() < common else random.getrandbits(32) for _ in range(random.randrange(2, 200))])


def called_with(count):
    """A loop that counts its argument down, called with so many constants and with a word that is loaded."""
    words = [0x90A22001, 0x12BFFFFF, 0x01000000, 0x81C3E008, 0x01000000, 0x9DE3BFA0]
    for argument in [*range(0x90102000, 0x90102000 + count), 0xD0062000]:
        words += [0x40000000 | -len(words) & 0x3FFFFFFF, argument]
    return image(words + [0x81C7E008, 0x81E80000], [("g", 0), ("f", 5)])


def at_limits(past):
    """What is at each limit, or past it by one: what it is, the image, what is behind the table, the assertions, and the message."""
    nop, leaf = 0x01000000, [0x81C3E008, 0x01000000]
    yield "nodes", image([nop] * (131071 + 2 * past)), b"", b"root f\n", past and "9 Nodes count 131073"
    yield "contexts", called_with(4094 + past), b"", b"root f\n", past and "9 Contexts count 4097"
    yield "functions", image([nop] * 20000, [("f", k) for k in range(16384 + past)]), b"", b"", past and "3 Limit what Functions count 16385"
    yield "symbols", image(leaf, symbols=262142 + past), b"", b"root f\n", past and "3 Limit what Symbols count 262145"
    yield "sections", image(leaf, sections=1020 + past), b"", b"root f\n", past and "3 Limit what Sections count 1025"
    never = b"".join(b"never 0x%08x\n" % (0x02000008 + 4 * k) for k in range(4095 + past))
    yield "statements", image(leaf + [nop] * 5000), b"", b"root f\n" + never, past and "5 Limit count 4097"
    yield "image", image(leaf).ljust(16777216 + past, b"\0"), b"", b"root f\n", past and "9 TooLong file 1 limit 16777216"
    size = os.path.getsize(TABLE)
    yield "table", image(leaf), b"#" * (1048576 + past - size), b"root f\n", past and "9 TooLong file 2 limit 1048576"
    yield "assertions", image(leaf), b"", b"root f\n".ljust(1048576 + past, b"#"), past and "9 TooLong file 3 limit 1048576"


def all_but_limits(work):
    """Everything but the files at a limit: how many runs ended otherwise."""
    bad, data = 0, open(IMAGE, "rb").read()
    file, root = os.path.join(work, "image"), os.path.join(work, "assertions")
    open(root, "w").write("root f\n")

    tally = Tally("each byte of headers and symbols as 0, ff, its complement")
    for place in header_bytes(data):
        for byte in (0, 0xFF, data[place] ^ 0xFF):
            open(file, "wb").write(data[:place] + bytes([byte]) + data[place + 1 :])
            tally.run(["bound", file, TABLE, ASSERTIONS], f"byte {place} as {byte}")
    bad += tally.told()

    tally = Tally("cut to each length")
    for size in range(0, len(data), max(1, len(data) // 500)):
        open(file, "wb").write(data[:size])
        tally.run(["bound", file, TABLE, ASSERTIONS], f"{size} bytes")
    bad += tally.told()

    draw = random.Random(1)
    for command in ("bound", "graph", "decode"):
        for common, kind in ((0.7, "common and random instructions"), (0.0, "random bytes")):
            tally = Tally(f"`{command}` on {kind} behind sound headers")
            for n in range(COUNT):
                open(file, "wb").write(random_image(draw, common))
                tally.run([command, file] + [TABLE, root] * (command != "decode"), f"image {n}")
            bad += tally.told()

    tally = Tally("random bytes as each of the three files")
    for n in range(COUNT):
        open(file, "wb").write(draw.randbytes(draw.randrange(0, 400)))
        for words in ([file, TABLE, ASSERTIONS], [IMAGE, file, ASSERTIONS], [IMAGE, TABLE, file]):
            tally.run(["bound", *words], f"file {n}")
    bad += tally.told()

    tally = Tally("no file, a directory, a pipe, a device as each of the three files")
    pipe = os.path.join(work, "pipe")
    os.mkfifo(pipe)
    held = os.open(pipe, os.O_RDWR)
    for name in (os.path.join(work, "none"), work, pipe, "/dev/full", "/dev/null", "/dev/zero", ""):
        for words in ([name, TABLE, ASSERTIONS], [IMAGE, name, ASSERTIONS], [IMAGE, TABLE, name]):
            tally.run(["bound", *words], name)
    os.close(held)
    bad += tally.told()

    tally = Tally("words that aren't commands")
    for words in ([], [""], ["bound"], ["bound", IMAGE], ["bound", IMAGE, TABLE, ASSERTIONS, "more"], ["graph"], ["decode"], ["decode", IMAGE, "more"], ["gen", "4001"],
                  ["gen", "-1"], ["bound", IMAGE, TABLE, ASSERTIONS, "--workers", "0"], ["bound", IMAGE, TABLE, ASSERTIONS, "--workers", "65"], ["x" * 100000]):
        tally.run(words, str(words)[:60])
    bad += tally.told()

    tally = Tally("an output that is full, or a pipe that nobody reads")
    unread, write = os.pipe()
    os.close(unread)
    for end in (os.open("/dev/full", os.O_WRONLY), write):
        for command in (["bound", IMAGE, TABLE, ASSERTIONS], ["graph", IMAGE, TABLE, ASSERTIONS], ["decode", IMAGE]):
            tally.run(command, "an output", "7 WriteFault written 0", stdout=end)
        tally.run(["bound", IMAGE, TABLE, IMAGE], "an error", stderr=end)
        os.close(end)
    bad += tally.told()

    tally = Tally("standard input, output and error closed")
    for command in (["bound", IMAGE, TABLE, ASSERTIONS], ["bound", IMAGE, TABLE, IMAGE], ["graph", IMAGE, TABLE, ASSERTIONS], ["decode", IMAGE]):
        for closed in ((0,), (1,), (2,), (0, 1), (1, 2), (0, 2), (0, 1, 2)):
            tally.run(command, f"{closed} closed", closed=closed)
    bad += tally.told()
    return bad


def limits(work):
    """The files at each limit and one past it: how many runs ended otherwise."""
    bad = 0
    file, table, statements = (os.path.join(work, name) for name in ("image", "table", "statements"))
    for given in zip(at_limits(0), at_limits(1)):
        tally = Tally(f"at the limit and one past it: {given[0][0]}", 600)
        for what, bytes_, further, text, message in given:
            open(file, "wb").write(bytes_)
            open(table, "wb").write(open(TABLE, "rb").read() + further)
            open(statements, "wb").write(text)
            for command in ("bound", "graph"):
                tally.run([command, file, table, statements], f"{what}, `{command}`", message or None)
        bad += tally.told()
    return bad


def main():
    work = tempfile.mkdtemp()
    print("| What | Runs | Statuses | Greatest seconds of the processor | Greatest MB |\n|---|---|---|---|---|")
    bad = all_but_limits(work) if LIMITS != "only" else 0
    bad += limits(work) if LIMITS != "no" else 0
    shutil.rmtree(work)
    sys.exit(1 if bad else 0)


main()
END
