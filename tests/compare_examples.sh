#!/bin/sh
# Compares what the program says of each executable in examples/ with what stands beside it: its listing, the report or
# the refusal of its bound, by one table of cycles or by two, and its graph; and the line of the largest executable that
# `gen` makes with what it has to be. It prints what differs, and ends with status 1 where something does. Where there is
# no program it says so and ends with status 0.
#
# BOUNDT: the program; else crates/boundt/out/boundt, which `rt run` in crates/boundt proves, builds and leaves there.
set -u
top=$(cd "$(dirname "$0")/.." && pwd)
boundt=${BOUNDT:-$top/crates/boundt/out/boundt}
if [ ! -x "$boundt" ]; then
    echo "skipped: there is no program $boundt ('rt run' in crates/boundt makes it)"
    exit 0
fi
said=$(mktemp) || exit 1
trap 'rm -f "$said"' EXIT
cd "$top/examples" || exit 1

status=0
count=0
for image in *.elf; do
    name=${image%.elf}
    "$boundt" decode "$image" > "$said" 2>&1
    diff -u "$name.listing" "$said" || status=1
    "$boundt" bound "$image" erc32.cycles "$name.assert" > "$said" 2>&1
    diff -u "$name.report" "$said" || status=1
    if [ -f "$name.leon2.report" ]; then
        "$boundt" bound "$image" leon2.cycles "$name.assert" > "$said" 2>&1
        diff -u "$name.leon2.report" "$said" || status=1
    fi
    if [ -f "$name.graph" ]; then
        "$boundt" graph "$image" erc32.cycles "$name.assert" > "$said" 2>&1
        diff -u "$name.graph" "$said" || status=1
    fi
    count=$((count + 1))
done
"$boundt" gen 4000 > "$said" 2>&1
echo 'gen 4000 nodes 31963 contexts 4001 bound 622003' | diff -u - "$said" || status=1
echo "examples: $count executables compared"
exit $status
