"""What makers of hostile texts share: the greatest file, texts that are filled up to it, and names.

A text is bytes of at most 1,048,576. Nothing here keeps one, since several make up the peak of memory
of the script that runs the program on them.
"""
from typing import Callable, NamedTuple

MOST = 1_048_576


class Text(NamedTuple):
    """A hostile text: what it is, the first bytes that the first command of its kind writes, how it
    is made, whether it is also read with little memory and with a small stack, and whether what is
    made of it may be so much that Memory is a due answer."""

    name: str
    due: str
    make: Callable[[], bytes]
    tight: bool = False
    deep: bool = False
    large: bool = False


def filled(head, unit, tail=b"", most=MOST):
    """As many units between head and tail as fit; what is left over is blanks in front of the tail,
    where there are blanks in the kind of text, so callers pass a `most` where there are none."""
    count = (most - len(head) - len(tail)) // len(unit)
    return head + unit * count + tail


def padded(text, pad=b" "):
    """A text with pads behind it, up to the greatest file."""
    return text + pad * ((MOST - len(text)) // len(pad))


def numbered(head, unit_of, tail=b"", count=None, between=b""):
    """Units with the numbers from 0 on, as many as fit, or so many, with bytes between two."""
    units, size, number = [], len(head) + len(tail), 0
    while number != count:
        unit = unit_of(number).encode()
        size += len(unit) + len(between)
        if size > MOST:
            break
        units.append(unit)
        number += 1
    return head + between.join(units) + tail


DIGITS = "abcdefghijklmnopqrstuvwxyzABCDEFGHIJKLMNOPQRSTUVWXYZ0123456789_"


def name_of(number):
    """A short name of its own for each number, no reserved word: `n` and digits of 63 kinds."""
    letters = "n"
    while True:
        letters += DIGITS[number % len(DIGITS)]
        number //= len(DIGITS)
        if not number:
            return letters


def long_name_of(number):
    """A name of 64 bytes for each number."""
    return f"n{number:063d}"


def tree_of(leaf, levels, symbol=b"^", fan=3):
    """An expression of fan^levels leaves that nests 3 deeper for each level: chains of three in
    brackets."""
    text = leaf
    for _ in range(levels):
        text = b"(" + symbol.join([text] * fan) + b")"
    return text
