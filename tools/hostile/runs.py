"""Long runs, which take what their rows and steps take, each with a bar of its own on processor time."""
from pathlib import Path
from typing import Callable, NamedTuple

from hostile import extensions
from hostile.texts import MOST, filled

EXAMPLES = Path(__file__).resolve().parents[2] / "examples"


class Run(NamedTuple):
    """A command, the files that are made for it, its bar in processor seconds, and the words of a
    command whose output, up to the greatest file, it reads as `made.trace`."""

    name: str
    words: str
    files: dict[str, Callable[[], bytes]]
    seconds: float
    before: str = ""


def image(*words):
    return lambda: "".join(f"{it:08x}\n" for it in words).encode()


def jump_back(count):
    """A jump from behind so many words to the first."""
    offset = -4 * count & 0x1FFFFF
    return (offset >> 20) << 31 | (offset >> 1 & 0x3FF) << 21 | (offset >> 11 & 1) << 20 | (offset >> 12 & 0xFF) << 12 | 0x6F


def example(name):
    return lambda: (EXAMPLES / name).read_bytes()


# Stores to one word of memory after the other
STORES = image(0x800000B7, 0x0010A023, 0x00408093, 0xFF9FF06F)
# A loop, and a handler of interrupts that counts them
COUNTED = image(0x0200006F, 0x13, 0x13, 0x13, 0x00128293, 0x30200073, 0x13, 0x13, 0x00108093, jump_back(1))
# Loads of one word, each of which waits
LOADS = image(0x800000B7, 0x0000A103, 0xFFDFF06F)
# What a block does in each turn: numbers of 33 bits, and of more than 64
SUM = b"a=(unsigned<32>)(a+b);"
PRODUCT = b"a=(unsigned<32>)(a*b+i);"
WAITS_255 = {"waits": lambda: b"255 " * 65_536}
NO_WAITS = {"waits": lambda: b""}


def slow_sheet():
    """A core whose operations take no time, so that a block of any length fits."""
    return b'core = "three"\nperiod = 1000\n'


def words_of_all(count):
    """The words of the instructions that `instructions` makes, with x1 and x2 read and x3 written, and
    a jump back."""
    opcodes = [0b0001011, 0b0101011, 0b1011011, 0b1111011]
    words = [(n // 32 % 2) << 28 | 0x0020_8180 | (n % 8) << 12 | opcodes[n // 8 % 4] for n in range(count)]
    return image(*words, jump_back(count))


def many_behaviours(count=64):
    """Instructions of 253 operations each, one behind the other."""
    return extensions.state(b"", extensions.instructions(count, lambda _: extensions.chain_of(b"a=(unsigned<32>)(a+b);", 125)))


def many_blocks(turn, turns):
    """Eight blocks, which are evaluated for each instruction, of so many turns."""
    entries = b"".join(b"register unsigned<32> r%d;" % n for n in range(8))
    blocks = b"".join(b"b%d{unsigned<32> a=r%d;unsigned<32> b=r%d;for(int i=0;i<%d;i++)%sr%d=a;}" % (n, n, (n + 1) % 8, turns, turn, n) for n in range(8))
    return b"InstructionSet A extends RV32I { architectural_state { " + entries + b" } always { " + blocks + b"} }"


def spawning():
    """Eight decoupled sums, whose units are all at work."""
    return extensions.state(b"", extensions.instructions(8, lambda n: b"spawn X[rd]=(unsigned<32>)(X[rs1]+X[rs2]%s);" % (b"+1" * n)))


def bit_fields(statements):
    """An instruction with 25 fields of one bit, whose long names differ in the last bytes alone, and a
    behaviour of so many statements."""
    names = [b"f" * 62 + b"%02d" % n for n in range(25)]
    encoding = b"::".join(b"%s[0:0]" % it for it in names)
    body = b"unsigned<32> x=0;" + b"x=(unsigned<32>)(x+1);" * statements
    return b"InstructionSet A extends RV32I { instructions { i { encoding: %s::7'b0001011; behavior: { %s } } } }" % (encoding, body)


def bit_lines(most=MOST):
    """Lines with 25 operands each."""
    return filled(b"", b"i " + b",".join([b"1"] * 25) + b"\n", most=most)


LONG = [
    Run("a loop of stores, a word further each time", "run image 200000", {"image": STORES}, 10),
    Run("the same with an extension", "run all.core_desc three.toml image waits 200000", {"image": STORES, "all.core_desc": example("wide-add.core_desc"), **NO_WAITS}, 10),
    Run("loads that wait for 255 rows", "run all.core_desc three.toml image waits 200000", {"image": LOADS, **WAITS_255}, 10),
    Run("64 behaviours of 253 operations", "run all.core_desc five.toml image waits 20000", {"all.core_desc": many_behaviours, "image": words_of_all(64), **NO_WAITS}, 12),
    Run("8 blocks of 242 operations", "run all.core_desc slow.toml image waits 20000", {"all.core_desc": lambda: many_blocks(SUM, 120), "slow.toml": slow_sheet, "image": image(0x13, 0x13, jump_back(2)), **NO_WAITS}, 12),
    Run("8 blocks of 242 operations on 65 bits", "run all.core_desc slow.toml image waits 20000", {"all.core_desc": lambda: many_blocks(PRODUCT, 80), "slow.toml": slow_sheet, "image": image(0x13, 0x13, jump_back(2)), **NO_WAITS}, 30),
    Run("8 units at work", "run all.core_desc three.toml image waits 200000", {"all.core_desc": spawning, "image": words_of_all(8), **NO_WAITS}, 10),
    Run("an interrupt each 48 rows", "run all.core_desc three.toml image waits lines 200000", {"image": COUNTED, "all.core_desc": example("wide-add.core_desc"), "lines": lambda: b" ".join(b"%d" % (48 * n + 3) for n in range(4_096)), **NO_WAITS}, 10),
    Run("a loop of stores", "seq all.core_desc image 200000", {"image": STORES}, 3),
    Run("64 behaviours of 253 operations", "seq all.core_desc image 200000", {"all.core_desc": many_behaviours, "image": words_of_all(64)}, 10),
    Run("8 blocks of 242 operations", "seq all.core_desc image 200000", {"all.core_desc": lambda: many_blocks(SUM, 120), "image": image(0x13, 0x13, jump_back(2))}, 10),
    Run("8 blocks of 242 operations on 65 bits", "seq all.core_desc image 20000", {"all.core_desc": lambda: many_blocks(PRODUCT, 80), "image": image(0x13, 0x13, jump_back(2))}, 10),
    Run("an instruction of 490,000 names", "seq all.core_desc image 200", {"all.core_desc": lambda: extensions.most(b"a=a" + b"^b" * 29 + b";"), "image": image(0x0020818B, jump_back(1))}, 10),
    Run("dot products", "wave all.core_desc five.toml image waits 200000", {"all.core_desc": example("dot-product.core_desc"), "image": image(0x0020818B, 0x0020818B, jump_back(2)), **NO_WAITS}, 10),
    Run("64 behaviours of 253 operations", "wave all.core_desc five.toml image waits 5000", {"all.core_desc": many_behaviours, "image": words_of_all(64), **NO_WAITS}, 12),
    Run("10,000 words of 64 behaviours", "bench all.core_desc five.toml 1 10000", {"all.core_desc": many_behaviours}, 12),
    Run("10,000 words of the base set", "bench all.core_desc five.toml 3 10000", {"all.core_desc": lambda: b"InstructionSet A extends RV32I { }"}, 10),
    Run("two loops of stores", "barrel all.core_desc three.toml image image 200000", {"all.core_desc": example("wide-add.core_desc"), "image": STORES}, 10),
    Run("8 units of each hart", "barrel all.core_desc three.toml image image 200000", {"all.core_desc": spawning, "image": words_of_all(8)}, 10),
    Run("a trace of stores", "audit all.core_desc three.toml image waits made.trace", {"all.core_desc": example("wide-add.core_desc"), "image": STORES, **NO_WAITS}, 3, "run all.core_desc three.toml image waits 10000"),
    Run("a trace of 8 units", "audit all.core_desc three.toml image waits made.trace", {"all.core_desc": spawning, "image": words_of_all(8), **NO_WAITS}, 3, "run all.core_desc three.toml image waits 9000"),
    Run("a trace of 64 behaviours", "audit all.core_desc five.toml image waits made.trace", {"all.core_desc": many_behaviours, "image": words_of_all(64), **NO_WAITS}, 5, "run all.core_desc five.toml image waits 9000"),
    Run("lines of 25 operands", "asm all.core_desc source", {"all.core_desc": lambda: bit_fields(1), "source": bit_lines}, 1),
    Run("lines of 25 operands of a behaviour of 16,300 statements", "asm all.core_desc source", {"all.core_desc": lambda: bit_fields(16_300), "source": bit_lines}, 3),
    Run("a report of 24 behaviours", "certify made.trace", {"all.core_desc": lambda: many_behaviours(24)}, 3, "schedule all.core_desc five.toml"),
]
