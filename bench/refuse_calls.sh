#!/bin/sh
# Refuses one call of the system in each run of the program, outside the gate: each allocation, each open, seek, read and
# write in turn, and then lets each read and write in turn move one byte alone; at last each allocation of a run with two
# workers. It says how many runs ended with which status, and the greatest time of the processor and memory of one run. It ends
# with status 1 where a run ended in another way than it must: a refused allocation in want of memory or in the whole text, a
# refused open, seek or read in the fault of its file, each of these with nothing written; a refused write in a fault that says
# how much was written, of which just that stands there; and a read or write of one byte in the whole text.
#
#     bench/refuse_calls.sh [EXECUTABLE..]
#
# EXECUTABLE: examples/sum.elf and examples/switch.elf if none is given; beside it stands its .assert. BOUNDT: the program;
# else crates/boundt/out/boundt, which is proved and built first where it isn't there. It needs a C compiler, as CC or cc, for
# a library of some lines that is put before the C library.
set -eu
cd "$(dirname "$0")/.."
boundt=${BOUNDT:-crates/boundt/out/boundt}
if [ ! -x "$boundt" ]; then
    (cd crates/boundt && rt run -- decode ../../examples/set_point.elf >/dev/null)
fi
work=$(mktemp -d)
trap 'rm -rf "$work"' EXIT
cat >"$work/refuse.c" <<'END_OF_C'
/* The call of the kind REFUSED_KIND with the number REFUSED_AT, from 1, is refused, and the file REFUSED_MARK then made. */
#define _GNU_SOURCE
#include <errno.h>
#include <fcntl.h>
#include <stdlib.h>
#include <string.h>
#include <sys/syscall.h>
#include <unistd.h>

extern void *__libc_malloc(size_t);
extern void *__libc_realloc(void *, size_t);
static _Atomic long calls;

static int is_refused(const char *kind) {
    const char *refused = getenv("REFUSED_KIND"), *at = getenv("REFUSED_AT"), *mark = getenv("REFUSED_MARK");
    if (!refused || !at || !mark || strcmp(refused, kind) != 0 || ++calls != strtol(at, 0, 10)) return 0;
    syscall(SYS_close, syscall(SYS_open, mark, O_CREAT | O_WRONLY, 0600));
    return 1;
}

static ssize_t refusal(int error) {
    errno = error;
    return -1;
}

void *malloc(size_t size) {
    return is_refused("alloc") ? (refusal(ENOMEM), (void *)0) : __libc_malloc(size);
}

void *realloc(void *old, size_t size) {
    return is_refused("alloc") ? (refusal(ENOMEM), (void *)0) : __libc_realloc(old, size);
}

int open(const char *name, int flags, ...) {
    return is_refused("open") ? refusal(EIO) : syscall(SYS_open, name, flags, 0600);
}

off_t lseek(int file, off_t at, int from) {
    return is_refused("seek") ? refusal(EIO) : syscall(SYS_lseek, file, at, from);
}

ssize_t read(int file, void *into, size_t size) {
    if (is_refused("read")) return refusal(EIO);
    return syscall(SYS_read, file, into, size > 1 && is_refused("short read") ? 1 : size);
}

ssize_t write(int file, const void *from, size_t size) {
    if (file == 1 && is_refused("write")) return refusal(EIO);
    return syscall(SYS_write, file, from, file == 1 && size > 1 && is_refused("short write") ? 1 : size);
}
END_OF_C
"${CC:-cc}" -shared -fPIC -O1 -o "$work/refuse.so" "$work/refuse.c"
[ $# -gt 0 ] || set -- examples/sum.elf examples/switch.elf
python3 - "$boundt" "$work" "$@" <<'END'
import collections, os, re, resource, subprocess, sys, threading

PROGRAM, WORK, TABLE, SECONDS, BYTES = os.path.abspath(sys.argv[1]), sys.argv[2], "examples/erc32.cycles", 20, 3_400_000_000
MARK = os.path.join(WORK, "mark")


def run(words, kind="", at=0):
    """One run: whether a call was refused, its status, what it wrote and said, its time and its memory."""
    if os.path.exists(MARK):
        os.remove(MARK)
    given = {"LD_PRELOAD": os.path.join(WORK, "refuse.so"), "REFUSED_KIND": kind, "REFUSED_AT": str(at), "REFUSED_MARK": MARK}
    limit = lambda: resource.setrlimit(resource.RLIMIT_CPU, (SECONDS, SECONDS))
    with open(os.path.join(WORK, "out"), "w+b") as out, open(os.path.join(WORK, "err"), "w+b") as err:
        child = subprocess.Popen([PROGRAM, *words], stdin=subprocess.DEVNULL, stdout=out, stderr=err, env=given, preexec_fn=limit)
        # A run that waits for ever is ended too; other programs may want the processor, so it has much longer.
        timer = threading.Timer(20 * SECONDS, child.kill)
        timer.start()
        _, status, used = os.wait4(child.pid, 0)
        timer.cancel()
        out.seek(0)
        err.seek(0)
        code = os.waitstatus_to_exitcode(status)
        return os.path.exists(MARK), code, out.read(), err.read().decode(), used.ru_utime + used.ru_stime, used.ru_maxrss * 1024


def is_right(kind, plain, code, text, said):
    """Whether a run ended as it must, where one that refuses nothing ends with this status and text."""
    whole = (code, text, said) == (*plain, "")
    if kind.startswith("short"):
        return whole
    if kind == "alloc":
        return whole or (code, text, said) == (8, b"", "boundt: 8 Want\n")
    if kind == "write":
        part = re.fullmatch(r"boundt: 7 WriteFault written (\d+)\n", said)
        return code == 7 and part is not None and text == plain[1][: int(part[1])]
    return code == 6 and text == b"" and re.fullmatch(r"boundt: 6 ReadFault file [123]\n", said) is not None


def sweep(kind, commands, name):
    """Refuses the calls of one kind in turn, in each of the commands, and says by this name what was seen."""
    statuses, runs, seconds, most, bad = collections.Counter(), 0, 0.0, 0, []
    for words in commands:
        _, code, text, said, _, _ = run(words)
        plain, at = (code, text), 1
        while True:
            refused, code, text, said, time, memory = run(words, kind, at)
            if not refused:
                break
            runs, seconds, most = runs + 1, max(seconds, time), max(most, memory)
            statuses[code] += 1
            if not is_right(kind, plain, code, text, said) or memory > BYTES:
                bad.append(f"{' '.join(words)}: {kind} {at}: status {code}, {said[:80]!r}")
            at += 1
    seen = ", ".join(f"{code}: {n}" for code, n in sorted(statuses.items()))
    print(f"| {name} | {runs} | {seen} | {seconds:.2f} | {most / 1e6:.0f} |", flush=True)
    for line in bad[:5]:
        print(f"  BAD: {line}", flush=True)
    return len(bad)


def main():
    commands, shared = [], []
    for image in sys.argv[3:]:
        files = [image, TABLE, image[: -len(".elf")] + ".assert"]
        commands += [["bound", *files], ["graph", *files], ["decode", image]]
        shared += [["bound", *files, "--workers", "2"]]
    print("| Refused | Runs | Statuses | Greatest seconds of the processor | Greatest MB |\n|---|---|---|---|---|")
    kinds = ("alloc", "open", "seek", "read", "short read", "write", "short write")
    bad = sum(sweep(kind, commands, kind) for kind in kinds)
    sys.exit(1 if bad + sweep("alloc", shared, "alloc, 2 workers") else 0)


main()
END
