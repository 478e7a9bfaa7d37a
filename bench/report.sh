#!/bin/sh
# Times the report of many outcomes: CONTEXTS contexts of one subprogram, each known by another word in %o0 and with REASONS
# reasons, in an order that isn't the report's. It prints the processor seconds of a small program that makes the outcomes and
# their report, the least of three runs, at a quarter, a half and all of the contexts, and beside them those of GNU objdump
# over a code section of 4,000,000 words where that is found.
#
#     bench/report.sh [CONTEXTS [REASONS]]
#
# 4096 contexts and 100 reasons if left out. It makes the program in a copy of the crates that it stands on, where rt proves and
# builds them. TIMED: such a program, if it stands already; then nothing is proved or built.
set -eu
cd "$(dirname "$0")/.."
top=$(pwd)
work=$(mktemp -d)
trap 'rm -rf "$work"' EXIT
mkdir -p "$work/crates/timed/src"
for crate in bt_base bt_image value_lattice call_effects abs_state wcet_report; do
    mkdir "$work/crates/$crate"
    cp -r "crates/$crate/src" "crates/$crate/specs" "crates/$crate/proofs" "$work/crates/$crate/" 2>/dev/null || true
done
grep -E '^(bt_base|bt_image|value_lattice|call_effects|abs_state|wcet_report):' crates.txt >"$work/crates.txt"
echo 'timed: abs_state anyhow bt_base bt_image value_lattice wcet_report' >>"$work/crates.txt"
cat >"$work/crates/timed/src/main.rt" <<'END'
//! Makes outcomes and their report, and says how long the report is. Its input has three lines: the name of an executable,
//! the number of contexts, and the number of reasons of each.
#![tactic(auto)]

use abs_state::Args;
use anyhow::Result;
use bt_base::{FileShelf, Want, read_all};
use bt_image::Image;
use std::alloc::Global;
use std::io::{self, BufRead, BufReader};
use value_lattice::Value;
use wcet_report::{
    Context, Loops, Outcome, OutcomeList, Outcomes, Reason, Reasons, Roots, text,
};

/// A context in which %o0 is a word, and nothing is known of the other arguments.
fn known_by(alloc: Global, word: u32) -> Result<Context, Want> {
    let mut list = Vec::with_capacity(alloc, 13)?;
    list.push(Value::word(word)?)?;
    for _ in 0..12u32 {
        list.push(Value::top())?;
    }
    Ok(Context::With(Args { list }))
}

/// So many calls whose callee has no bound.
fn calls(alloc: Global, count: u32) -> Result<Reasons, Want> {
    let mut list = Vec::new(alloc);
    for k in 0..count {
        list.push(Reason::Callee {
            call: k.wrapping_mul(4),
            callee: 0x0200_0000,
        })?;
    }
    Ok(Reasons::new(list))
}

/// The outcome of the context with this number.
fn outcome(alloc: Global, number: u32, reasons: u32) -> Result<Outcome, Want> {
    Ok(Outcome {
        sub: 0x0200_0000,
        context: known_by(alloc, number.wrapping_mul(2_654_435_761))?,
        loops: Loops::new(Vec::new(alloc)),
        reasons: calls(alloc, reasons)?,
        bound: None,
    })
}

/// The outcomes of so many contexts.
fn outcomes(alloc: Global, contexts: u32, reasons: u32) -> Result<Outcomes, Want> {
    let mut list = Vec::new(alloc);
    for number in 0..contexts {
        list.push(outcome(alloc, number, reasons)?)?;
    }
    let mut roots = Vec::new(alloc);
    roots.push(0x0200_0000)?;
    Ok(Outcomes {
        roots: Roots::new(roots),
        list: OutcomeList::new(list),
    })
}

fn main(rt: HostRuntime) -> Result<()> {
    let alloc = rt.alloc();
    let mut asked = Vec::new(alloc);
    for line in BufReader::new(alloc, rt.reader())?.lines(alloc) {
        asked.push(line?)?;
    }
    if asked.len() < 3 {
        return Ok(());
    }
    let contexts = asked[1].as_str().parse::<u32>()?;
    let reasons = asked[2].as_str().parse::<u32>()?;
    let mut shelf = FileShelf::new(rt.clone()?);
    let Ok(bytes) = read_all(alloc, &mut shelf, asked[0].as_str(), 16_777_216) else {
        return Ok(());
    };
    let Ok(image) = Image::read(alloc, &bytes) else {
        return Ok(());
    };
    let made = outcomes(alloc, contexts, reasons)?;
    let report = text(alloc, &made, &image)?;
    println!(rt; "{}", report.len())?;
    Ok(())
}
END
printf '%s\n1\n1\n' "$top/examples/set_point.elf" >"$work/crates/timed/stdin"
if [ -z "${TIMED:-}" ]; then
    (cd "$work/crates/timed" && rt run <stdin >/dev/null)
    TIMED=$work/crates/timed/out/timed
fi
python3 bench/make_input.py image 4000000 3 "$work/i"
python3 - "$TIMED" "$top/examples/set_point.elf" "${1:-4096}" "${2:-100}" "$work/i" <<'END'
import resource, shutil, subprocess, sys

program, image, contexts, reasons, code = sys.argv[1], sys.argv[2], int(sys.argv[3]), int(sys.argv[4]), sys.argv[5]

def spent_by_children():
    used = resource.getrusage(resource.RUSAGE_CHILDREN)
    return used.ru_utime + used.ru_stime

def least(words, given):
    best, said = None, ""
    for _ in range(3):
        begin = spent_by_children()
        done = subprocess.run(words, input=given, capture_output=True, text=True)
        spent = spent_by_children() - begin
        best = spent if best is None else min(best, spent)
        said = done.stdout if len(done.stdout) < 100 else ""
    return best, said.strip()

stock = shutil.which("sparc64-linux-gnu-objdump")
other = least([stock, "-d", "-z", code], "")[0] if stock else None
for count in (contexts // 4, contexts // 2, contexts):
    spent, said = least([program], f"{image}\n{count}\n{reasons}\n")
    ratio = f", {spent / other:.3f} of objdump's {other:.3f}" if other else ""
    print(f"{count} contexts with {reasons} reasons each: {said} bytes in {spent:.3f} s{ratio}")
END
