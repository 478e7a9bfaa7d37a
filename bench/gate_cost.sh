#!/bin/sh
# What the gate costs, crate by crate: runs `rt ci` and watches the processes that it starts, or watches a gate that runs
# already, and prints a table of processor seconds (user and system) for each crate: its proof, its tests, its wrong bodies.
#
#     bench/gate_cost.sh [CRATE..]        runs `rt ci CRATE..` (of all crates, where none is named); its log goes to
#                                         standard error
#     bench/gate_cost.sh --of PID         watches the `rt ci` with this process number until it ends
#     bench/gate_cost.sh --log FILE       makes no table of times: from a log of `rt ci` alone, which tells none, it says
#                                         which crates were proved anew, their functions, their tests and their edits
#
# What an earlier run kept costs nothing and has no row: for the cost of all, take a machine on which nothing is kept, or
# add --anew. Processor seconds don't depend on what else runs, as wall seconds do; the processors should be few enough
# busy that they don't slow each other all the same.
set -eu
cd "$(dirname "$0")/.."
exec python3 - "$@" <<'END'
import os, re, subprocess, sys, time

TICK = os.sysconf("SC_CLK_TCK")

def processes():
    """Each process: its parent, the processor seconds that it spent itself, and its command line."""
    found = {}
    for name in os.listdir("/proc"):
        if not name.isdigit():
            continue
        try:
            stat = open("/proc/%s/stat" % name).read()
            words = open("/proc/%s/cmdline" % name).read().split("\0")
        except OSError:
            continue
        fields = stat[stat.rindex(")") + 2:].split()
        found[int(name)] = (int(fields[1]), (int(fields[11]) + int(fields[12])) / TICK, words)
    return found

def below(found, root):
    """The processes that a process started, and those that these started."""
    inside = {root}
    grew = True
    while grew:
        more = {p for p, (parent, _, _) in found.items() if parent in inside and p not in inside}
        grew = bool(more)
        inside |= more
    return inside - {root}

def kind_of(pid, words):
    """The crate that a process of the prover works on, and for what; None for other processes."""
    if "--crate-name" not in words:
        return None
    crate = words[words.index("--crate-name") + 1]
    try:
        folder = os.readlink("/proc/%d/cwd" % pid)
    except OSError:
        return None
    if "/rt-edit-" in folder:
        return crate, 2
    return crate, 1 if "--test" in words else 0

def watch(root, over):
    """The greatest processor seconds seen of each process below this one, until it is over."""
    spent = {}
    while not over():
        found = processes()
        for pid in below(found, root):
            seconds, words = found[pid][1:]
            kind = spent[pid][0] if pid in spent else kind_of(pid, words)
            if kind:
                spent[pid] = (kind, seconds)
        time.sleep(0.5)
    return spent

def edits_of(crate):
    folder = os.path.join("crates", crate, "must-fail")
    return len([f for f in os.listdir(folder) if f.endswith(".edit")]) if os.path.isdir(folder) else 0

def tests_of(crate):
    count = 0
    for folder, _, files in os.walk(os.path.join("crates", crate, "src")):
        count += sum(open(os.path.join(folder, f)).read().count("#[test]") for f in files if f.endswith(".rt"))
    return count

def table(spent):
    rows = {}
    for (crate, column), seconds in spent.values():
        rows.setdefault(crate, [0.0, 0.0, 0.0])[column] += seconds
    print("processors: %d" % os.cpu_count())
    print()
    print("| Crate | Proof | Tests | Edits | All | Number of tests | Number of edits |")
    print("|---|---|---|---|---|---|---|")
    for crate, row in sorted(rows.items(), key=lambda r: -sum(r[1])):
        print("| `%s` | %.0f | %.0f | %.0f | %.0f | %d | %d |" % (crate, *row, sum(row), tests_of(crate), edits_of(crate)))
    sums = [sum(row[i] for row in rows.values()) for i in range(3)]
    print("| all | %.0f | %.0f | %.0f | %.0f | | |" % (*sums, sum(sums)))

def read_log(path):
    crate, functions, proved = None, {}, []
    for line in open(path):
        begun = re.match(r"== (\S+)", line)
        told = re.match(r"logic=proved (?:tests=\d+ )?functions=(\d+)", line)
        done = re.match(r"rt: (\S+) proved", line)
        if begun:
            crate = begun.group(1)
        elif told and crate:
            functions[crate] = int(told.group(1))
        elif done:
            proved.append(done.group(1))
    print("| Crate | Functions | Tests | Edits |")
    print("|---|---|---|---|")
    for name in proved:
        print("| `%s` | %d | %d | %d |" % (name, functions.get(name, 0), tests_of(name), edits_of(name)))

words = sys.argv[1:]
if words[:1] == ["--log"]:
    read_log(words[1])
elif words[:1] == ["--of"]:
    root = int(words[1])
    table(watch(root, lambda: not os.path.exists("/proc/%d" % root)))
else:
    gate = subprocess.Popen(["rt", "ci"] + words, stdout=sys.stderr.fileno(), stderr=sys.stderr.fileno())
    spent = watch(gate.pid, lambda: gate.poll() is not None)
    table(spent)
    sys.exit(gate.returncode)
END
