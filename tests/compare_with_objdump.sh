#!/bin/sh
# Compares the listings of `boundt decode` with those of GNU objdump, word by word: the address and the word, the
# name of the instruction, its annul bit, and the target of a branch or a call.
#
#     tests/compare_with_objdump.sh [EXECUTABLE..]
#
# Without names it takes examples/*.elf. It prints each difference that isn't one of spelling, and ends with
# status 1 where there is one. Where no objdump for SPARC is found it says so and ends with status 0.
#
# OBJDUMP: the disassembler; else sparc64-linux-gnu-objdump, else objdump.
# BOUNDT: the program, which is run as `$BOUNDT decode EXECUTABLE`; else crates/boundt/out/boundt, which `rt run` in
# crates/boundt proves, builds and leaves there.
set -u
top=$(cd "$(dirname "$0")/.." && pwd)
boundt=${BOUNDT:-$top/crates/boundt/out/boundt}
work=$(mktemp -d) || exit 1
trap 'rm -rf "$work"' EXIT

# An objdump that knows SPARC.
find_objdump() {
    for each in ${OBJDUMP:-sparc64-linux-gnu-objdump objdump}; do
        if "$each" -i 2>/dev/null | grep -q sparc; then
            echo "$each"
            return
        fi
    done
}

# The lines of objdump as ours: the address, the word, the name, and the target where the operand is an address.
their_lines() {
    "$objdump" -d -z -w "$1" | awk -F '\t' '
        /^ *[0-9a-f]+:\t/ {
            address = $1; gsub(/[ :]/, "", address)
            word = $2; gsub(/ /, "", word)
            text = $3; sub(/^ +/, "", text)
            count = split(text, part, / +/)
            target = ""
            if (count >= 2 && part[2] ~ /^[0-9a-f]+$/) target = part[2]
            while (length(address) < 8) address = "0" address
            while (target != "" && length(target) < 8) target = "0" target
            # operands of the coprocessor and of the queues, whose loads and stores bear the common names
            if (text ~ /%(c[0-9]|csr|cq|fq)/) part[1] = "coprocessor"
            print address, word, part[1], target
        }'
}

# Compares our lines with theirs.
compare() {
    awk -v file="$3" '
        # other spellings of one name: what an assembler calls the instruction with some operands
        function also(name, list,   count, i, each) {
            count = split(list, each, " ")
            for (i = 1; i <= count; i++) spelled[name, each[i]] = 1
        }
        BEGIN {
            also("or", "mov clr bset"); also("xor", "btog"); also("andn", "bclr")
            also("xnor", "not"); also("add", "inc"); also("sub", "dec neg"); also("addcc", "inccc")
            also("subcc", "cmp deccc negcc"); also("andcc", "btst"); also("orcc", "tst")
            also("sethi", "nop"); also("jmpl", "jmp call ret retl")
            also("st", "clr"); also("stb", "clrb"); also("sth", "clrh")
            also("ldf", "ld"); also("ldfsr", "ld"); also("lddf", "ldd")
            also("stf", "st"); also("stfsr", "st"); also("stdf", "std")
            also("rdy", "rd mov"); also("wry", "wr mov"); also("iflush", "flush"); also("unimp", "illtrap")
            also("ba", "b"); also("be", "bz"); also("bne", "bnz"); also("bcs", "blu"); also("bcc", "bgeu")
            also("ta", "t"); also("te", "tz"); also("tne", "tnz"); also("tcs", "tlu"); also("tcc", "tgeu")
            count = split("n ne lg ul l ug g u a e ue ge uge le ule o", float, " ")
            for (i = 1; i <= count; i++) also("fb" (i - 1), "fb" float[i])
            also("fb8", "fb"); also("fb9", "fbz"); also("fb1", "fbnz")
        }
        # so many bits of a word from one on
        function bits(word, low, width,   i, value) {
            value = 0
            for (i = 1; i <= 8; i++) value = value * 16 + index("0123456789abcdef", substr(word, i, 1)) - 1
            return int(value / 2 ^ low) % 2 ^ width
        }
        # whether a bit is set that the instruction does not use: boundt ignores it, and objdump may know no name then
        function has_unused_bits(name, word) {
            if (name ~ /^(unimp|ldfsr|stfsr)$/ && bits(word, 25, 5) != 0) return 1
            if (name == "unimp") return 0
            if (name == "rdy") return bits(word, 0, 19) != 0
            if (name ~ /^(sll|srl|sra)$/ || bits(word, 13, 1) == 0) return bits(word, 5, 8) != 0
            return 0
        }
        # whether our name of a word and theirs mean the same
        function same(ours, theirs, word,   annulled, their_annulled) {
            if (ours == ".word") return theirs !~ modelled
            annulled = sub(/,a$/, "", ours)
            their_annulled = sub(/,a$/, "", theirs)
            if (annulled != their_annulled) return 0
            if (theirs == "unknown" && has_unused_bits(ours, word)) return 1
            return ours == theirs || (ours, theirs) in spelled
        }
        BEGIN {
            # the names of the instructions that boundt names: no other word may bear one of them
            modelled = "^(add|addcc|addx|addxcc|and|andcc|andn|andncc|call|cmp|fb[a-z]*|jmpl?|ldd?|ldstub|ldu?[bh]|" \
                "lds[bh]|mulscc|nop|orn?|orncc|orcc|restore|ret|retl|save|sethi|sll|sra|srl|std?|st[bh]|sub|subcc|" \
                "subx|subxcc|swap|taddcc|taddcctv|tsubcc|tsubcctv|tst|xnor|xnorcc|xor|xorcc)$"
        }
        function differ(what) { print file ": " what; differences++ }
        FILENAME == ARGV[1] { theirs[$1] = $0; next }
        {
            ours++
            if (!($1 in theirs)) { differ($0 ": objdump has no such address"); next }
            split(theirs[$1], their, " ")
            target = ($3 ~ /^(b|fb)/ || $3 == "call") ? $4 : ""
            if ($2 != their[2]) differ($0 ": objdump reads the word " their[2])
            else if (!same($3, their[3], $2)) differ($0 ": objdump says " their[3])
            else if (target != "" && target != their[4]) differ($0 ": objdump goes to " their[4])
            delete theirs[$1]
        }
        END {
            for (address in theirs) differ(address ": objdump lists a word that is missing here")
            print file ": " ours + 0 " words, " differences + 0 " differences"
            exit differences > 0
        }' "$2" "$1"
}

objdump=$(find_objdump)
if [ -z "$objdump" ]; then
    echo "skipped: there is no objdump for SPARC (Debian: binutils-sparc64-linux-gnu)"
    exit 0
fi
if [ $# -eq 0 ]; then
    set -- "$top"/examples/*.elf
    if [ ! -e "$1" ]; then
        echo "skipped: there are no examples"
        exit 0
    fi
fi
if [ ! -x "$boundt" ]; then
    echo "skipped: there is no program $boundt ('rt run' in crates/boundt makes it)"
    exit 0
fi

status=0
for file; do
    if ! "$boundt" decode "$file" > "$work/ours"; then
        echo "$file: boundt doesn't list it"
        status=1
        continue
    fi
    their_lines "$file" > "$work/theirs"
    compare "$work/ours" "$work/theirs" "$file" || status=1
done
exit $status
