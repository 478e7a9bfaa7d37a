#!/bin/sh
# Times how long one, two and four workers take for the graph of a made executable of FUNCTIONS functions, which main calls
# one after the other: the wall seconds of `gen FUNCTIONS`, the least of RUNS runs, and the share of one worker's time.
#
#     bench/parts.sh [FUNCTIONS [RUNS]]
#
# 4000 functions, whose graph has some 32,000 nodes, and 5 runs if left out. BOUNDT: the program; else
# crates/boundt/out/boundt, which is proved and built first where it isn't there. Run it on an idle machine with at least
# four processors: two workers are to take at most 0.8 of one worker's time, and four at most 0.6.
set -eu
cd "$(dirname "$0")/.."
boundt=${BOUNDT:-crates/boundt/out/boundt}
if [ ! -x "$boundt" ]; then
    (cd crates/boundt && rt run -- decode ../../examples/set_point.elf >/dev/null)
fi
echo "processors: $(nproc)"
exec python3 - "$boundt" "${1:-4000}" "${2:-5}" <<'END'
import subprocess, sys, time

program, functions, runs = sys.argv[1], sys.argv[2], int(sys.argv[3])
WANTED = {2: 0.8, 4: 0.6}


def least(workers):
    """The least wall time of the runs, and the line that they all write."""
    best, said = None, set()
    for _ in range(runs):
        begin = time.perf_counter()
        done = subprocess.run([program, "gen", functions, "--workers", str(workers)], capture_output=True, text=True)
        spent = time.perf_counter() - begin
        if done.returncode:
            sys.exit(f"{workers} workers: status {done.returncode}: {done.stderr.strip()}")
        best = spent if best is None else min(best, spent)
        said.add(done.stdout.strip())
    if len(said) != 1:
        sys.exit(f"{workers} workers: runs differ: {sorted(said)}")
    return best, said.pop()


alone, line = least(1)
print(line)
print(f"1 worker:  {alone:.3f} s")
for workers in (2, 4):
    spent, other = least(workers)
    if other != line:
        sys.exit(f"{workers} workers: {other}")
    share = spent / alone
    told = "as wanted" if share <= WANTED[workers] else f"more than {WANTED[workers]}"
    print(f"{workers} workers: {spent:.3f} s, {share:.2f} of one worker's time ({told})")
END
