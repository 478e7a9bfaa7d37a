#!/bin/sh
# The benchmark: processor seconds (user and system) and the greatest memory of the program on made inputs of four sizes and on
# the examples, each time as a ratio to what GNU objdump takes in the same run for a made file of 4,000,000 words, beside the
# ratio that is aimed at, and how times grow: the exponent e of the power of the size that fits them best (1 is linear). It
# prints tables in Markdown.
#
#     bench/run.sh [KIND..]
#
# KIND: functions, gen, straight, counters, nested, side, chain, decode, symbols, assertions, examples; all of them if none is
# given. BOUNDT: the program; else crates/boundt/out/boundt, which is proved and built first where it isn't there. REPEAT: how
# often a run of less than 10 seconds is made, the least counts; 3 if not given. LIMIT: the seconds after which a run is given up;
# 120 if not given. WORDS: further words behind the file names, such as '--workers 2'.
set -eu
cd "$(dirname "$0")/.."
boundt=${BOUNDT:-crates/boundt/out/boundt}
if [ ! -x "$boundt" ]; then
    (cd crates/boundt && rt run -- decode ../../examples/set_point.elf >/dev/null)
fi
exec python3 - "$boundt" "${REPEAT:-3}" "${LIMIT:-120}" "${WORDS:-}" "$@" <<'END'
import math, os, shutil, subprocess, sys, tempfile

PROGRAM, REPEAT, LIMIT, FURTHER = os.path.abspath(sys.argv[1]), int(sys.argv[2]), int(sys.argv[3]), sys.argv[4].split()
TABLE = os.path.abspath("examples/erc32.cycles")
STOCK = shutil.which("sparc64-linux-gnu-objdump")
LONG = 10


def once(words):
    """One run: its processor seconds, its greatest memory in MB, and its status; None where it passes the limit."""
    limited = ["sh", "-c", f'ulimit -t {LIMIT}; exec "$@"', "", *words]
    child = subprocess.Popen(limited, stdin=subprocess.DEVNULL, stdout=subprocess.DEVNULL, stderr=subprocess.DEVNULL)
    _, status, used = os.wait4(child.pid, 0)
    child.returncode = os.waitstatus_to_exitcode(status)
    if child.returncode < 0:
        return None
    return used.ru_utime + used.ru_stime, used.ru_maxrss / 1024, child.returncode


def least(words):
    """The least of some runs."""
    best = once(words)
    for _ in range(REPEAT - 1):
        if best is None or best[0] > LONG:
            break
        best = min(best, once(words) or best)
    return best


def made(kind, sizes, room):
    """Makes an input of a kind, in a process of its own, so that this one stays small: no run shows less memory than it has."""
    name = f"{room}/{kind}"
    subprocess.run([sys.executable, "bench/make_input.py", kind, *map(str, sizes), name], check=True)
    return name


def analysed(command, kind):
    """What makes the words of a command on a made file with its assertions."""
    return lambda sizes, room: [command, (name := made(kind, sizes, room)), TABLE, name + ".assert", *FURTHER]


def with_statements(sizes, room):
    image = made("image", (32768, 262144), room)
    return ["bound", image, TABLE, made("assertions", sizes, room), *FURTHER]


def over_symbols(sizes, room):
    image = made("image", (32768, *sizes), room)
    return ["bound", image, TABLE, made("assertions", (1,), room), *FURTHER]


# kind: what is done, how its words are made, the four sizes, the ratio that is aimed at
ROWS = {
    "decode": ("`decode`, {} words", lambda sizes, room: ["decode", made("image", (*sizes, 3), room)], [(n,) for n in (500000, 1000000, 2000000, 4000000)], None),
    "symbols": ("`bound` of a leaf, {} symbols", over_symbols, [(n,) for n in (32768, 65536, 131072, 262144)], None),
    "assertions": ("`bound` of a leaf, 262,144 symbols, {} assertions", with_statements, [(n,) for n in (512, 1024, 2048, 4096)], None),
    "straight": ("`bound`, straight code of {} words", analysed("bound", "straight"), [(n,) for n in (16384, 32768, 65536, 131071)], 0.02),
    "chain": ("`graph`, a chain of {} calls", analysed("graph", "chain"), [(n,) for n in (750, 1500, 3000, 6000)], 0.06),
    "functions": ("`bound`, {} small functions and a main", analysed("bound", "functions"), [(n,) for n in (500, 1000, 2000, 4000)], 0.05),
    "gen": ("`gen {}`", lambda sizes, room: ["gen", str(sizes[0]), *FURTHER], [(n,) for n in (500, 1000, 2000, 4000)], 0.05),
    "side": ("`bound`, {} loops in one", analysed("bound", "side"), [(n,) for n in (250, 500, 1000, 2000)], None),
    "nested": ("`bound`, 27 nested loops in {} words", analysed("bound", "nested"), [(27, n) for n in (1700, 3400, 6800, 13600)], 0.25),
    "counters": ("`bound`, a loop of {} words with 20 counters", analysed("bound", "counters"), [(n, 20) for n in (2500, 5000, 10000, 20000)], 0.05),
}
EXAMPLES = sorted(name[:-4] for name in os.listdir("examples") if name.endswith(".elf"))


def size_of(kind, sizes):
    return sizes[1] if kind == "nested" else sizes[0]


def exponent(points):
    """The slope of the line through the logarithms of sizes and seconds, or nothing where they are too few or too short."""
    points = [(math.log(n), math.log(s)) for n, s in points if s >= 0.01]
    if len(points) < 2:
        return "-"
    x, y = (sum(it) / len(points) for it in zip(*points))
    return "%.1f" % (sum((a - x) * (b - y) for a, b in points) / sum((a - x) ** 2 for a, _ in points))


def show(what, run, unit, aim, grows):
    seconds = f"{run[0]:.3f}" if run else f"over {LIMIT}"
    ratio = "-" if unit is None else f"{run[0] / unit:.3f}" if run else f"over {LIMIT / unit:.0f}"
    memory = "-" if not run else f"under {math.ceil(FLOOR)}" if run[1] <= FLOOR * 1.05 else f"{run[1]:.0f}"
    print(f"| {what} | {seconds} | {ratio} | {aim or '-'} | {memory} | {grows} |", flush=True)


FLOOR = once(["true"])[1]


def main():
    asked = sys.argv[5:] or [*ROWS, "examples"]
    with tempfile.TemporaryDirectory() as room:
        unit = None
        if STOCK:
            code = made("image", (4000000, 3), room)
            unit = least([STOCK, "-d", "-z", code])[0]
        print(f"objdump on 4,000,000 words: {unit:.2f} processor seconds\n" if unit else "no objdump was found\n")
        print("| what | seconds | ratio | aimed at | MB | e |\n|---|---|---|---|---|---|")
        for kind, (what, words, all_sizes, aim) in ROWS.items():
            if kind not in asked or kind == "gen" and (once([PROGRAM, "gen", "3"]) or (0, 0, 2))[2] == 2:
                continue
            points = []
            for sizes in all_sizes:
                run = least([PROGRAM, *words(sizes, room)])
                last = run is None or sizes == all_sizes[-1]
                if run:
                    points.append((size_of(kind, sizes), run[0]))
                show(what.format(f"{size_of(kind, sizes):,}"), run, unit, aim if sizes == all_sizes[-1] else None, exponent(points) if last else "")
                if run is None:
                    break
        for name in EXAMPLES if "examples" in asked else []:
            run = least([PROGRAM, "bound", f"examples/{name}.elf", TABLE, f"examples/{name}.assert", *FURTHER])
            show(f"`bound`, `{name}.elf`", run, unit, 0.02, "-")


main()
END
