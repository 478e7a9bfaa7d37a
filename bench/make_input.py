#!/usr/bin/env python3
"""Makes inputs for the benchmark: executables of one kind, each with its assertions where an analysis wants some.

    make_input.py image WORDS SYMBOLS FILE          a mix of instructions behind a leaf `f`, and so many names of functions
    make_input.py assertions STATEMENTS FILE        one root and further statements by name, over such an image
    make_input.py straight WORDS FILE               one function without a branch
    make_input.py counters WORDS COUNTERS FILE      one loop with so many counters, each compared with a limit of its own
    make_input.py nested LOOPS WORDS FILE           loops inside one another, each with a counter in a register of its own
    make_input.py side LOOPS FILE                   many short loops one after the other inside one loop
    make_input.py chain FUNCTIONS FILE              functions each of which calls the next
    make_input.py functions FUNCTIONS FILE          small functions with a loop, and a main that calls each of them

All kinds but the first two write FILE and, beside it, FILE.assert. `functions` makes what the program's own generator makes.
"""
import struct
import sys

RETURN = [0x81C3E008, 0x01000000]
MIX = [0x9DE3BFA0, 0x11000001, 0x90122005, 0xD0062004, 0x80A22000, 0x12800004, 0x92103FFF, 0xD2262008, 0x912A2002,
       0x4000000A, 0x01000000, 0xA0042001, 0x30800003, 0x81C7E008, 0x81E80000, 0xC0000000]
BASE = 0x02000000
MOST_FUNCTIONS = 16384
NOP, SAVE, RETURN_OF_WINDOW = 0x01000000, 0x9DE3BFA0, [0x81C7E008, 0x81E80000]
# what stands between: a load, a mask, a store, by way of %o7 behind a SAVE, or of %g4 where %o7 has the return address
BETWEEN, BETWEEN_IN_LEAF = [0xDE03A040, 0x9E0BE0FF, 0xDE23A044, NOP], [0xC803A040, 0x880920FF, 0xC823A044, NOP]
ADD, SUBCC, OR = 0x00, 0x14, 0x02
LESS, ALWAYS, NOT_LESS = 3, 8, 11
# %l0 to %l7, %o0 to %o5, %g1 to %g7, %i0 to %i5
COUNTERS = [*range(16, 24), *range(8, 14), *range(1, 8), *range(24, 30)]


def with_number(operation, source, number, target):
    """An instruction of arithmetic or logic with a number as its second operand."""
    return 2 << 30 | target << 25 | operation << 19 | source << 14 | 1 << 13 | number & 0x1FFF


def branch(condition, words):
    """A branch on a condition, by so many words."""
    return condition << 25 | 0x00800000 | words & 0x3FFFFF


def call(words):
    """A CALL, by so many words."""
    return 1 << 30 | words & 0x3FFFFFFF


def between(count, words=BETWEEN):
    """So many words of no effect on counters."""
    return [words[i % len(words)] for i in range(count)]


def write(name, code, symbols):
    """Writes an executable of the code and the symbols: a name, an address and a size in bytes each."""
    text = struct.pack(">%dI" % len(code), *code)
    names = bytearray(b"\0")
    table = bytearray(16)
    for word, address, size in symbols:
        table += struct.pack(">IIIBBH", len(names), address, size, 0x12, 0, 1)
        names += word + b"\0"
    names += b"\0" * (-len(names) % 4)
    places = [52, 52 + len(text), 52 + len(text) + len(table)]
    headers = places[2] + len(names)
    out = bytearray(b"\x7fELF\x01\x02\x01" + b"\0" * 9)
    out += struct.pack(">HHIIIIIHHHHHH", 2, 2, 1, BASE, 0, headers, 0, 52, 0, 0, 40, 4, 3)
    out += text + table + names
    out += b"\0" * 40
    out += struct.pack(">10I", 0, 1, 6, BASE, places[0], len(text), 0, 0, 4, 0)
    out += struct.pack(">10I", 0, 2, 0, 0, places[1], len(table), 3, 1, 4, 16)
    out += struct.pack(">10I", 0, 3, 0, 0, places[2], len(names), 0, 0, 1, 0)
    with open(name, "wb") as file:
        file.write(out)


def root(word, name):
    """Writes the assertion that this function is the root."""
    with open(name + ".assert", "w") as file:
        file.write("root %s\n" % word)


def image(words, symbols, name):
    code = RETURN + [MIX[i % len(MIX)] for i in range(words - len(RETURN))]
    addresses = min(MOST_FUNCTIONS, words)
    others = [(b"s%06x" % k, BASE + 4 * (k % addresses), 4) for k in range(2, symbols)]
    write(name, code, [(b"f", BASE, 8)] + others)


def assertions(statements, name):
    with open(name, "w") as file:
        file.write("root f\n")
        for k in range(1, statements):
            file.write("at s%06x+0x%x %%o0 -5..%d\n" % (2 + 4 * k, 4, k))


def straight(words, name):
    write(name, between(words - len(RETURN), BETWEEN_IN_LEAF) + RETURN, [(b"f", BASE, 4 * words)])
    root("f", name)


def counters(words, count, name):
    code = [SAVE] + [with_number(OR, 0, 0, it) for it in COUNTERS[:count]]
    head, out = len(code), words - len(RETURN_OF_WINDOW)
    rest = out - head - 4 * count - 2
    for k, register in enumerate(COUNTERS[:count]):
        code += [with_number(ADD, register, 1, register), with_number(SUBCC, register, 100 + k, 0)]
        code += [branch(NOT_LESS, out - len(code)), NOP]
        code += between(rest * (k + 1) // count - rest * k // count)
    code += [branch(ALWAYS, head - len(code)), NOP] + RETURN_OF_WINDOW
    write(name, code, [(b"f", BASE, 4 * len(code))])
    root("f", name)


def nested(loops, words, name):
    code, heads = [SAVE], []
    half = (words - len(code) - len(RETURN_OF_WINDOW) - 5 * loops) // (2 * loops)
    for register in COUNTERS[:loops]:
        code.append(with_number(OR, 0, 0, register))
        heads.append(len(code))
        code += between(half)
    for register, head in zip(reversed(COUNTERS[:loops]), reversed(heads)):
        code += between(half) + [with_number(ADD, register, 1, register), with_number(SUBCC, register, 2, 0)]
        code += [branch(LESS, head - len(code)), NOP]
    code += RETURN_OF_WINDOW
    write(name, code, [(b"f", BASE, 4 * len(code))])
    root("f", name)


def side(loops, name):
    code = [SAVE, with_number(OR, 0, 0, 16)]
    for _ in range(loops):
        code += [with_number(OR, 0, 0, 17), with_number(ADD, 17, 1, 17), with_number(SUBCC, 17, 8, 0), branch(LESS, -2), NOP]
    code += [with_number(ADD, 16, 1, 16), with_number(SUBCC, 16, 4, 0)]
    code += [branch(LESS, 2 - len(code)), NOP] + RETURN_OF_WINDOW
    write(name, code, [(b"f", BASE, 4 * len(code))])
    root("f", name)


def chain(functions, name):
    code, symbols = [], []
    for k in range(functions):
        of_it = [SAVE, call(4), NOP] + RETURN_OF_WINDOW if k + 1 < functions else RETURN
        symbols.append((b"f%d" % k, BASE + 4 * len(code), 4 * len(of_it)))
        code += of_it
    write(name, code, symbols)
    root("f0", name)


def functions(count, name):
    code, symbols = [], []
    for k in range(count):
        symbols.append((b"f%d" % k, BASE + 4 * len(code), 20))
        code += [0x90A22001, 0x12BFFFFF, NOP, *RETURN]
    begin = len(code)
    code.append(SAVE)
    for k in range(count):
        code += [call(5 * k - len(code)), 0x90102000 + 1 + (37 * k + 11) % 100]
    code += RETURN_OF_WINDOW
    symbols.append((b"main", BASE + 4 * begin, 4 * (len(code) - begin)))
    write(name, code, symbols)
    root("main", name)


KINDS = {made.__name__: made for made in (image, assertions, straight, counters, nested, side, chain, functions)}

if __name__ == "__main__":
    KINDS[sys.argv[1]](*map(int, sys.argv[2:-1]), sys.argv[-1])
