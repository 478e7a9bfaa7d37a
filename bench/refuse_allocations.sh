#!/bin/sh
# Refuses one allocation in each run, while two workers grow a small ring: under a lock, and by parts. Every run has to
# end: in the whole graph, or in want of memory. Under the lock each claim has to come back: what was refused is done again,
# and then nothing is left out.
#
#     bench/refuse_allocations.sh [FIRST [LAST]]
#
# It refuses the allocations of these numbers in turn, by default from the first on until a run needs fewer. The program is
# made once, in a copy of the crates that it stands on, where rt proves and builds it, which takes some minutes. A small
# library in C, which is loaded before the C library, counts the allocations of a run and refuses the one whose number it
# is told.
#
# BOUNDT: a program; where it is given, its report of an example by two workers is asked for likewise, and has to be the
# report that it gives with ample memory, or want of memory.
#
# The script ends with another status than 0 where a run hangs, faults or ends with another answer.
set -eu
cd "$(dirname "$0")/.."
work=$(mktemp -d)
trap 'rm -rf "$work"' EXIT
mkdir -p "$work/crates/refused/src"
crates='bt_base flow_system flow_core local_facts edge_publish shard_slots fact_pool worker_pool part_pool core_rows'
for crate in $crates; do
    mkdir "$work/crates/$crate"
    cp -r "crates/$crate/src" "crates/$crate/specs" "crates/$crate/proofs" "$work/crates/$crate/" 2>/dev/null || true
done
cp HANDLES "$work/"
for crate in $crates; do
    grep -E "^$crate( [a-z_]+=[A-Za-z0-9+]+)*:" crates.txt
done >"$work/crates.txt"
echo 'refused: core_rows fact_pool flow_core flow_system part_pool worker_pool' >>"$work/crates.txt"
git -C "$work" init -q
cat >"$work/crates/refused/src/main.rt" <<'END'
//! Two workers who grow a ring of 40 keys. Its one argument says what they are to do.
#![tactic(auto)]
ghost use Rattle.std.specs.Prelude.{◌≡◌};
ghost use Rattle.std.specs.Thread.{IsSync};

use core_rows::Ring;
use fact_pool::Pool;
use flow_core::{Core, GrowRefusal};
use flow_system::Name;
use part_pool::grow;
use std::alloc::Global;
use std::env;
use std::io;
use std::process::ExitCode;
use std::sync::Wait;
use std::thread;
use std::thread::Threads;
use worker_pool::{NODE_LIMIT, NoGate, grow_pooled, labour_pooled};

struct ShortRing;

impl Name<u32, u8> for ShortRing {
    ghost use Rattle.core_rows.specs.Ring.{ring};

    ghost rules = { ring 39 20 };

    ghost limit = { 131072 };
}

/// The ring of 40 keys.
fn short_ring() -> Ring
    ensures { (result.last ≡ 39) × (result.second ≡ 20) }
{
    Ring {
        last: 39,
        second: 20,
    }
}

/// A pool over a new core of the ring.
fn new_pool(alloc: Global, system: &Ring) -> Result<Pool<Ring, ShortRing>, GrowRefusal>
    requires { (system.now.last ≡ 39) × (system.now.second ≡ 20) }
{
    let core = Core::new(alloc, system, NODE_LIMIT)?;
    Ok(Pool::new(core))
}

/// Two workers share a pool.
fn labour_twice<R: Threads + Wait + Sync>(
    rt: &R,
    alloc: Global,
    pool: &Pool<Ring, ShortRing>,
    system: &Ring,
) -> (Result<(), GrowRefusal>, Result<(), GrowRefusal>)
    requires { (system.now.last ≡ 39) × (system.now.second ≡ 20) }
{
    thread::join(
        rt,
        || -> Result<(), GrowRefusal>
            requires { IsSync R.row × (system.now.last ≡ 39) × (system.now.second ≡ 20) }
        { labour_pooled(rt, alloc, pool, system, 0, &NoGate) },
        || -> Result<(), GrowRefusal>
            requires { IsSync R.row × (system.now.last ≡ 39) × (system.now.second ≡ 20) }
        { labour_pooled(rt, alloc, pool, system, 1, &NoGate) },
    )
}

/// Whether all claims come back: once the two workers are done, one more finds what is left.
fn claims_come_back<R: Threads + Wait + Sync>(rt: &R, alloc: Global) -> Result<bool, GrowRefusal> {
    let system = short_ring();
    let pool = new_pool(alloc, &system)?;
    let (one, other) = labour_twice(rt, alloc, &pool, &system);
    let no_nodes = one.is_ok() || one == Err(GrowRefusal::Want);
    let nor_there = other.is_ok() || other == Err(GrowRefusal::Want);
    let again = labour_pooled(rt, alloc, &pool, &system, 2, &NoGate);
    let done = again.is_ok() || labour_pooled(rt, alloc, &pool, &system, 2, &NoGate).is_ok();
    let core = pool.core();
    Ok(no_nodes && nor_there && done && core.idle() && core.facts().len() == 40)
}

/// Whether the graph that is grown under a lock has all its keys.
fn grows_pooled<R: Threads + Wait + Sync>(rt: &R, alloc: Global) -> Result<bool, GrowRefusal> {
    let closed = grow_pooled(rt, alloc, &short_ring(), 2, &NoGate)?;
    Ok(closed.facts().len() == 40)
}

/// Whether the graph that is grown by parts has all its keys.
fn grows<R: Threads + Wait + Sync>(rt: &R, alloc: Global) -> Result<bool, GrowRefusal> {
    let closed = grow(rt, alloc, &short_ring(), 2, &NoGate)?;
    Ok(closed.facts().len() == 40)
}

fn main(rt: HostRuntime) -> io::Result<ExitCode> {
    let alloc = rt.alloc();
    let Ok(words) = env::args(&rt) else {
        return Ok(ExitCode::FAILURE);
    };
    let answer = match words.skip(1).next() {
        None => return Ok(ExitCode::FAILURE),
        Some(word) => match word.as_str() {
            "claims" => claims_come_back(&rt, alloc),
            "pooled" => grows_pooled(&rt, alloc),
            _ => grows(&rt, alloc),
        },
    };
    match answer {
        Err(GrowRefusal::Want) => return Ok(ExitCode::FAILURE),
        Ok(true) => println!(rt; "the whole graph")?,
        _ => println!(rt; "another answer")?,
    }
    Ok(ExitCode::SUCCESS)
}
END
mkdir -p "$work/crates/refused/proofs/new_pool"
cat >"$work/crates/refused/proofs/new_pool/Answers.antt" <<'END'
use Rattle.core_rows.specs.Ring.{ring_lawful}
use Rattle.refused.proofs.new_pool.Goals as goal

pub new-requires-2-clause-lawful : goal.new-requires-2-clause-lawful
new-requires-2-clause-lawful c = ring_lawful 39 20
END
printf 'claims\n' >"$work/crates/refused/args"
printf 'the whole graph\n' >"$work/crates/refused/stdout"
cat >"$work/refusing.c" <<'END'
#include <fcntl.h>
#include <stdatomic.h>
#include <stddef.h>
#include <stdlib.h>
#include <sys/mman.h>
#include <unistd.h>

void *__libc_malloc(size_t);
void *__libc_realloc(void *, size_t);

/* Where the allocations are counted: in the file that is told, so that the count is there however the program ends. */
static atomic_long here, *made = &here;
static long refused;

__attribute__((constructor)) static void begin(void) {
    const char *word = getenv("REFUSED"), *name = getenv("COUNTED");
    int file = name ? open(name, O_RDWR) : -1;
    void *shared = file < 0 ? MAP_FAILED : mmap(NULL, sizeof *made, PROT_READ | PROT_WRITE, MAP_SHARED, file, 0);
    if (file >= 0) close(file);
    if (shared != MAP_FAILED) made = shared;
    refused = word ? atol(word) : 0;
}

static int is_refused(void) { return atomic_fetch_add(made, 1) + 1 == refused; }

void *malloc(size_t size) { return is_refused() ? NULL : __libc_malloc(size); }

void *realloc(void *old, size_t size) { return is_refused() ? NULL : __libc_realloc(old, size); }
END
cc -O1 -shared -fPIC -o "$work/refusing.so" "$work/refusing.c"
program=${REFUSED_PROGRAM:-$work/crates/refused/out/refused}
if [ ! -x "$program" ]; then
    (cd "$work/crates/refused" && rt run -- claims >/dev/null)
fi
python3 - "$work" "$program" "${BOUNDT:-}" "${1:-1}" "${2:-1000000000}" <<'END'
import collections, os, subprocess, sys

work, program, boundt, first, last = sys.argv[1], sys.argv[2], sys.argv[3], int(sys.argv[4]), int(sys.argv[5])
COUNTED, SECONDS = f"{work}/counted", 20


def run(words, number):
    """One run in which the allocation of this number is refused: its status, what it wrote, and its allocations."""
    ends = {"LD_PRELOAD": f"{work}/refusing.so", "REFUSED": str(number), "COUNTED": COUNTED}
    open(COUNTED, "wb").write(bytes(8))
    done = subprocess.run(words, env={**os.environ, **ends}, stdin=subprocess.DEVNULL, capture_output=True, text=True, timeout=SECONDS)
    count = int.from_bytes(open(COUNTED, "rb").read(), sys.byteorder)
    return done.returncode, done.stdout, count


def tries(name, words, wanting):
    """Runs the words with each allocation refused in turn; a run may also end with the status of want of memory."""
    status, whole, count = run(words, 0)
    if status > 1 or not whole or count == 0:
        sys.exit(f"refuse_allocations: {name}: with ample memory it ends with status {status}")
    ends, number = collections.Counter(), first
    while number <= last:
        try:
            told, text, count = run(words, number)
        except subprocess.TimeoutExpired:
            sys.exit(f"refuse_allocations: {name}: number {number} doesn't end")
        is_whole = (told, text) == (status, whole)
        if not is_whole and told != wanting:
            sys.exit(f"refuse_allocations: {name}: number {number} ends with status {told}: {text[:200]}")
        ends["whole" if is_whole else "wanting"] += 1
        if count < number:
            break
        number += 1
    print(f"{name}: {sum(ends.values())} runs ended, {ends['wanting']} of them in want of memory", flush=True)


tries("two workers under a lock, and what they left done again", [program, "claims"], 1)
tries("two workers under a lock", [program, "pooled"], 1)
tries("two workers by parts", [program, "parts"], 1)
if boundt:
    words = [boundt, "bound", "examples/set_point.elf", "examples/erc32.cycles", "examples/set_point.assert", "--workers", "2"]
    tries("the report of two workers", words, 8)
END
