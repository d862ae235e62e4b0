"""Makes the case `cells` of crates/number_cases.

It has each of the 24 kinds of operations that compute, at operands of 1, 32, 33, 64 and 128 bits
(less where the result would pass 128), on patterns at the ends of their ranges and on some that
look random. The results are of exact whole numbers.
"""
import random

from case_files import replace

WIDTHS = [1, 32, 33, 64, 127, 128]
draw = random.Random(27)


def number(ty, raw):
    signed, width = ty
    return raw - (1 << width) if signed and raw >> (width - 1) else raw


def width_in(signed, ty):
    return ty[1] + 1 if signed and not ty[0] else ty[1]


def common(a, b):
    signed = a[0] or b[0]
    return signed, max(width_in(signed, a), width_in(signed, b))


COMPARE = {
    "Eq": lambda x, y: x == y, "Ne": lambda x, y: x != y, "Lt": lambda x, y: x < y,
    "Le": lambda x, y: x <= y, "Gt": lambda x, y: x > y, "Ge": lambda x, y: x >= y,
}


def result_type(op, a, b):
    """The type of `a op b`, or None."""
    if op in ("Add", "Sub"):
        signed, width = common(a, b)
        ty = (signed or op == "Sub", width + 1)
    elif op == "Mul":
        ty = (a[0] or b[0], a[1] + b[1])
    elif op in ("And", "Or", "Xor"):
        ty = (a[0], max(a[1], b[1])) if a[0] == b[0] else None
    elif op in ("Shl", "Shr"):
        ty = None if b[0] else a
    elif op == "Concat":
        ty = (False, a[1] + b[1])
    elif op in COMPARE:
        ty = (False, 1) if common(a, b)[1] <= 128 else None
    else:
        ty = (False, 1)
    return ty if ty and ty[1] <= 128 else None


def result(op, a, x, b, y):
    if op in COMPARE:
        return int(COMPARE[op](x, y))
    return {
        "Add": lambda: x + y, "Sub": lambda: x - y, "Mul": lambda: x * y,
        "And": lambda: x & y, "Or": lambda: x | y, "Xor": lambda: x ^ y,
        "Shl": lambda: x << y if y <= 128 else 0,
        "Shr": lambda: x >> min(y, 128),
        "Land": lambda: int(x != 0 and y != 0), "Lor": lambda: int(x != 0 or y != 0),
        "Concat": lambda: (x % (1 << a[1])) * (1 << b[1]) + y % (1 << b[1]),
    }[op]()


def corners(width):
    return sorted({0, 1, (1 << width) - 1, 1 << (width - 1), (1 << (width - 1)) - 1, (1 << width) // 3})


def patterns(width, count):
    """Patterns of a width: the ends of the ranges before those that look random."""
    ends = corners(width)
    draw.shuffle(ends)
    return (ends + [draw.getrandbits(width) for _ in range(count)])[:count]


def word(ty):
    return f"{'s' if ty[0] else 'u'} {ty[1]}"


def line(name, operands, ty, value, *more):
    words = [name] + [f"{word(t)} {raw}" for t, raw in operands] + [str(m) for m in more]
    return " ".join(words), f"{word(ty)} {value % (1 << ty[1])}"


def two(op):
    distance = op in ("Shl", "Shr")
    for w in WIDTHS:
        for v in sorted({1, 7, 128} if distance else {width for width in (w, 33, 127 - w) if width > 0}):
            for a in ((False, w), (True, w)):
                for b in ((False, v), (True, v)):
                    ty = result_type(op, a, b)
                    if not ty:
                        continue
                    for raw, other in zip(patterns(w, 2), patterns(v, 2)):
                        if distance and draw.randrange(3):
                            other = draw.choice([w - 1, w, w + 1, w // 2, 127, 128]) % (1 << v)
                        x, y = number(a, raw), number(b, other)
                        yield line(op, [(a, raw), (b, other)], ty, result(op, a, x, b, y))
    if op in COMPARE or op in ("And", "Or", "Xor", "Land", "Lor"):
        ty = (False, 128)
        for raw in corners(128):
            yield line(op, [(ty, raw), (ty, raw)], result_type(op, ty, ty), result(op, ty, raw, ty, raw))


def one():
    for w in WIDTHS:
        for a in ((False, w), (True, w)):
            for raw in corners(w):
                x = number(a, raw)
                if w < 128:
                    yield line("Neg", [(a, raw)], (True, w + 1), -x)
                yield line("Not", [(a, raw)], a, ~x)
                yield line("Lnot", [(a, raw)], (False, 1), int(x == 0))
            for raw in patterns(w, 3):
                hi = draw.randrange(w)
                lo = draw.randrange(hi + 1)
                yield line("Range", [(a, raw)], (False, hi - lo + 1), raw >> lo, hi, lo)
            for to in ((False, 1), (True, 32), (False, 33), (True, 64), (False, 128), (True, 128)):
                for raw in patterns(w, 2):
                    yield line("Cast", [(a, raw)], to, number(a, raw), word(to))


def choices():
    for w in WIDTHS:
        for a, b in (((False, w), (False, 33)), ((True, w), (True, w)), ((False, 32), (True, w)), ((True, 1), (False, w))):
            ty = common(a, b)
            if ty[1] > 128:
                continue
            for test in (0, 1):
                raw, other = patterns(a[1], 1)[0], patterns(b[1], 1)[0]
                value = number(a, raw) if test else number(b, other)
                yield line("Mux", [((False, 1), test), (a, raw), (b, other)], ty, value)


def tables():
    for w in WIDTHS:
        for bits in (1, 2, 5):
            for ty in ((False, w), (True, w)):
                spare = draw.randrange(3)
                entries = [draw.choice([draw.getrandbits(w), 0, 1]) for _ in range((1 << bits) + spare)]
                for index in patterns(bits, 2):
                    yield line("Rom", [((False, bits), index)], ty, entries[index], word(ty), *entries)
    entries = [k * k % 251 for k in range(4096)]
    for index in (0, 1, 2047, 4095):
        yield line("Rom", [((False, 12), index)], (False, 8), entries[index], word((False, 8)), *entries)


OPERATORS = ["Add", "Sub", "Mul", "And", "Or", "Xor", "Shl", "Shr", *COMPARE, "Land", "Lor", "Concat"]


def main():
    cases = [case for op in OPERATORS for case in two(op)]
    cases += [*one(), *choices(), *tables()]
    table = "".join(f"{text}\n" for text, _ in cases)
    due = "".join(f"{text} = {answer}\n" for text, answer in cases)
    # (a table is answered line by line, and the word stands in a line of its own)
    replace("number_cases", "cells", [(table, due)], answers=lambda case: case.count("\n") - 1)


if __name__ == "__main__":
    main()
