"""Programs that look random, for tools/user/rtl_compare.py: instructions of the base set on few
registers, so that they wait for each other, and the instructions of an extension."""
import re
from typing import NamedTuple

from ixt_texts import BadInput, kind_name, shown

EBREAK = 0x00100073
SMALL = range(8)  # the registers that instructions write
POINTERS = (29, 30, 31)  # the registers with addresses in memory, which none writes
POINTERS_START = (0x80000FB7, 0x010F8E93, 0x004F8F13)  # x31 = 80000000, x29 and x30 16 and 4 behind
INSTRUCTION = re.compile(r"instruction (\w+) mask ([0-9a-f]{8}) match ([0-9a-f]{8})", re.ASCII)
REGISTER = re.compile(r"register c(\d+) \w+ (?:un)?signed<(\d+)>", re.ASCII)


class Instruction(NamedTuple):
    """An instruction of an extension: its encoding, and the kinds of its operations."""

    name: str
    mask: int
    match: int
    kinds: set


class Listing(NamedTuple):
    """What a program has to know of an extension: its instructions, and the widths of its custom
    registers."""

    instructions: list
    widths: list


def listing_of(text, report, name):
    """What the listing of an extension and its report say."""
    kinds = {it.name: {kind_name(op.kind) for op in it.operations} for it in report.behaviours}
    instructions, widths = [], []
    for line in text.splitlines():
        form = INSTRUCTION.fullmatch(line)
        if form:
            if form[1] not in kinds:
                raise BadInput(f"{name}: the report has no behaviour {shown(form[1])}")
            codes = (int(form[2], 16), int(form[3], 16))
            instructions.append(Instruction(form[1], *codes, kinds[form[1]]))
        form = REGISTER.fullmatch(line)
        if form:
            widths.append(int(form[2]))
    return Listing(instructions, widths)


# Words of the base set


def i_word(opcode, kind, rd, rs1, number):
    return (number & 0xFFF) << 20 | rs1 << 15 | kind << 12 | rd << 7 | opcode


def s_word(kind, rs1, rs2, number):
    low, high = number & 0x1F, number >> 5 & 0x7F
    return high << 25 | rs2 << 20 | rs1 << 15 | kind << 12 | low << 7 | 0x23


def b_word(kind, rs1, rs2, number):
    high = (number >> 12 & 1) << 6 | number >> 5 & 0x3F
    low = number & 0x1E | number >> 11 & 1
    return high << 25 | rs2 << 20 | rs1 << 15 | kind << 12 | low << 7 | 0x63


def j_word(rd, number):
    high = (number >> 20 & 1) << 19 | (number >> 1 & 0x3FF) << 9 | (number >> 11 & 1) << 8
    return (high | number >> 12 & 0xFF) << 12 | rd << 7 | 0x6F


def offset_of(draw):
    """The way of a jump: mostly a few words ahead, seldom back or to half a word."""
    if draw.random() < 0.02:
        return 4 * draw.randrange(1, 5) + 2
    return 4 * (draw.randrange(2, 6) if draw.random() < 0.85 else draw.randrange(-4, 0))


def memory_word(draw):
    """A load or a store behind the addresses that the program starts with."""
    size = draw.randrange(3)
    number = 32 + (draw.randrange(8) << size)
    if draw.random() < 0.02:
        number += 1
    if draw.random() < 0.1:
        number = 0
    if draw.random() < 0.5:
        return s_word(size, draw.choice(POINTERS), draw.choice(SMALL), number)
    kind = size + (4 if size < 2 and draw.random() < 0.5 else 0)
    return i_word(0x03, kind, draw.choice(SMALL), draw.choice(POINTERS), number)


def base_word(draw, most):
    """A word of the base set; a jump through a register goes to one of the first `most` bytes."""
    sort = draw.random()
    rd, rs1, rs2 = (draw.choice(SMALL) for _ in range(3))
    kind = draw.randrange(8)
    if sort < 0.25:
        top = draw.choice([0, 0x400]) if kind in (1, 5) else draw.randrange(0x1000)
        number = top | draw.randrange(32) if kind == 5 else draw.randrange(32) if kind == 1 else top
        return i_word(0x13, kind, rd, rs1, number)
    if sort < 0.45:
        turned = kind in (0, 5) and draw.random() < 0.5
        return (0x20 if turned else 0) << 25 | rs2 << 20 | i_word(0x33, kind, rd, rs1, 0)
    if sort < 0.75:
        return memory_word(draw)
    if sort < 0.88:
        return b_word(draw.choice([0, 1, 4, 5, 6, 7]), rs1, rs2, offset_of(draw))
    if sort < 0.92:
        return j_word(rd, offset_of(draw))
    if sort < 0.94:
        return i_word(0x67, 0, rd, 0, draw.randrange(0, most, 4))
    if sort < 0.98:
        return draw.randrange(1 << 20) << 12 | rd << 7 | draw.choice([0x37, 0x17])
    return 0x0FF0000F


def extension_word(draw, it, by_register):
    """A word of an instruction: registers that hold addresses where it needs them, else mostly
    others, and small numbers."""
    free = draw.getrandbits(32) & draw.getrandbits(32) & draw.getrandbits(32) & ~it.mask
    asks = it.kinds & {"RdMem", "WrMem"} or (by_register and "WrCustReg" in it.kinds)
    pointer = draw.random() < (0.95 if asks else 0.2)
    fields = [
        ("RdRS1", 15, draw.choice(POINTERS if pointer else SMALL)),
        ("RdRS2", 20, draw.choice(SMALL)),
        ("WrRD", 7, draw.choice(SMALL)),
    ]
    for kind, place, register in fields:
        if kind in it.kinds:
            free = free & ~(31 << place) | register << place
    return it.match | free & ~it.mask


def random_program(draw, listing, words):
    """A program of so many words and some more: addresses into registers and memory first."""
    # (an address that is loaded comes from a custom register where it is no operand)
    by_register = any(
        it.kinds & {"RdMem", "WrMem"} and "RdRS1" not in it.kinds for it in listing.instructions
    )
    setting = [it for it in listing.instructions if by_register and "RdRS1" in it.kinds]
    first = 4 * (len(POINTERS_START) + 2 * len(POINTERS) + len(setting))
    total = first + 4 * words
    start = list(POINTERS_START)
    for pointer in POINTERS:
        place = draw.randrange(first, total, 4)
        start += [i_word(0x13, 0, 1, 0, place), s_word(2, pointer, 1, 0)]
    start += [extension_word(draw, it, by_register) for it in setting]
    body = []
    for _ in range(words):
        if listing.instructions and draw.random() < 0.4:
            body.append(extension_word(draw, draw.choice(listing.instructions), by_register))
        else:
            body.append(base_word(draw, total))
    ends = [EBREAK] * 6 + [0x00000073, 0xFFFFFFFF]
    last = draw.choice([*ends, None])
    return start + body + ([] if last is None else [last])


def random_waits(draw):
    """The waits of a memory: at most forty, mostly short ones."""
    longest = draw.choice([1, 2, 6])
    return [
        draw.randrange(longest + 1) if draw.random() < 0.7 else 0 for _ in range(draw.randrange(41))
    ]
