#!/usr/bin/env python3
"""Makes an image for `ixt` of C and assembly sources, or a C header with the instructions of an
extension.

The machine has its instructions at address 0, where no load reads, and a memory of zeros at
80000000. So the linker puts constants and initialised data into memory, and the image ends in code
that stores them there before `main` is called. The result of `main` is in x10 at the break behind
it.
"""
import argparse
import re
import shutil
import struct
import subprocess
import sys
import tempfile
from pathlib import Path
from typing import NamedTuple

from ixt_texts import (
    BadInput,
    add_output_option,
    add_program_option,
    finish,
    parse_report,
    refusal_of,
    run_program,
    shown,
    write_output,
)

COMPILER = "riscv64-unknown-elf-gcc"
START = Path(__file__).resolve().parent / "c_start"
MEMORY = 0x80000000
MOST_WORDS = 65_536
FLAGS = ["-march=rv32i", "-mabi=ilp32", "-ffreestanding", "-ffunction-sections", "-fdata-sections"]
LINK_FLAGS = ["-nostdlib", "-nostartfiles", "-static", "-Wl,--gc-sections", "-Wl,--fatal-warnings"]

# The slots of `.insn r` above the opcode: the lowest bit of each, its width, and the operation by
# which a behaviour uses it as a register.
SLOTS = {
    "funct3": (12, 3, ""),
    "funct7": (25, 7, ""),
    "rd": (7, 5, "WrRD"),
    "rs1": (15, 5, "RdRS1"),
    "rs2": (20, 5, "RdRS2"),
}


# Extensions


class Piece(NamedTuple):
    """Bits `high` to `low` of a field, which stand in the word from the bit `place` on."""

    field: str
    high: int
    low: int
    place: int


class Instruction:
    """An instruction of the listing. `kinds` are the operations of its behaviour, and `keeps` says
    whether it may leave rd as it was."""

    def __init__(self, name, mask, match):
        self.name = name
        self.mask = mask
        self.match = match
        self.pieces = []
        self.kinds = set()
        self.keeps = False

    def registers(self):
        """The slots that take registers, in the order of the assembler."""
        return [name for name, slot in SLOTS.items() if slot[2] in self.kinds]

    def numbers(self):
        """The fields that take numbers: none where the behaviour does not look at its word."""
        taken = {SLOTS[name][0] for name in self.registers()}
        fields = [it.field for it in self.pieces if it.place not in taken]
        return list(dict.fromkeys(fields)) if "RdInstr" in self.kinds else []


INSTRUCTION_LINE = re.compile(r"instruction (\w+) mask ([0-9a-f]{8}) match ([0-9a-f]{8})", re.ASCII)
PIECE_LINE = re.compile(r"piece (\w+) (\d+) (\d+) at (\d+)", re.ASCII)


def read_listing(text, name):
    """The instructions and the names of the blocks in what `check` writes."""
    instructions, blocks = [], []
    for line in text.splitlines():
        head, piece = INSTRUCTION_LINE.fullmatch(line), PIECE_LINE.fullmatch(line)
        if head:
            instructions.append(Instruction(head[1], int(head[2], 16), int(head[3], 16)))
        elif piece and instructions:
            numbers = [int(piece[at]) for at in (2, 3, 4)]
            instructions[-1].pieces.append(Piece(piece[1], *numbers))
        elif line.startswith("block "):
            blocks.append(line.removeprefix("block "))
        elif not line.startswith(("set ", "register ", "table ")):
            raise BadInput(f"{name}: {shown(line)} is no line of a listing")
    return instructions, blocks


def answer_of(program, extension, words):
    answer = run_program(program, words)
    if answer.status:
        raise BadInput(f"{extension}: the program refused it: {shown(refusal_of(answer))}")
    return answer.text


def instructions_of(program, extension):
    """The instructions of an extension, with what their behaviours do on a core whose operations
    take no time."""
    listing = answer_of(program, extension, ["check", extension])
    instructions, blocks = read_listing(listing, extension)
    with tempfile.TemporaryDirectory() as room:
        sheet = Path(room) / "no-delays.toml"
        sheet.write_text('core = "five"\nperiod = 1000000\n', encoding="utf-8")
        report = answer_of(program, extension, ["schedule", extension, sheet])
        verilog = answer_of(program, extension, ["build", extension, sheet])
    behaviours = {it.name: it for it in parse_report(report.splitlines(), "the report").behaviours}
    for it in instructions:
        operations = behaviours[it.name].operations
        it.kinds = {operation.kind.partition(".")[0] for operation in operations}
        writes = [operation.number for operation in operations if operation.kind == "WrRD"]
        it.keeps = any(not is_certain(verilog, it.name, number) for number in writes)
    for block in blocks:
        if any(operation.kind == "WrPC" for operation in behaviours[block].operations):
            raise BadInput(
                f"{extension}: its block {block} writes PC, of which a compiler knows nothing, "
                "so there is no C header"
            )
    return instructions


def is_certain(verilog, behaviour, number):
    """Whether a module writes in each case: the condition of the write is the constant 1."""
    start = verilog.index(f"module ixt_{behaviour}(")
    text = verilog[start : verilog.index("endmodule", start)]
    condition = re.search(rf"assign out{number}_c = (\w+);", text)
    return bool(condition) and f"assign {condition[1]} = 1'h1;" in text


# Headers


def header_text(program, extension):
    """A C header with a function or a macro for each instruction that C can call."""
    stem = Path(extension).stem
    guard = "IXT_" + re.sub(r"\W", "_", stem, flags=re.ASCII).upper() + "_H"
    good, faults = [], []
    for it in instructions_of(program, extension):
        fault = fault_of(it)
        if fault:
            faults.append(f"{it.name} is left out: {fault}")
        else:
            good.append(macro_text(it) if it.numbers() else function_text(it))
    if not good:
        raise BadInput("; ".join([f"{extension}: no instruction is left for C"] + faults))
    for fault in faults:
        print(f"{Path(sys.argv[0]).name}: {extension}: {fault}", file=sys.stderr)
    parts = [
        f"/* Instructions of {stem}.core_desc for C, made by tools/user/c_to_image.py. */",
        f"#ifndef {guard}\n#define {guard}\n\n#include <stdint.h>",
        *good,
        *[f"/* {fault} */" for fault in faults],
        f"#endif /* {guard} */",
    ]
    return "\n\n".join(parts) + "\n"


def fault_of(it):
    """Why C cannot call an instruction, or the empty text."""
    if it.mask & 0x7F != 0x7F or it.match & 3 != 3:
        return "its bits 6 to 0 are not fixed, or do not end in 11, so `.insn` does not take it"
    if "WrPC" in it.kinds:
        return "it writes PC, of which a compiler knows nothing"
    return ""


def insn_text(it):
    """The template `.insn r`, and a pair of name and expression for each number in it."""
    numbers, words = [], {}
    for name, (place, width, _) in SLOTS.items():
        prefix = "x" if name.startswith("r") else ""
        bits = slot_bits(it, place, width)
        if name in it.registers():
            words[name] = f"%[{name}]"
        elif bits:
            words[name] = f"{prefix}%[{name}]"
            numbers.append((name, " | ".join([fixed_text(it, place, width)] + bits)))
        else:
            words[name] = prefix + fixed_text(it, place, width)
    order = [words[name] for name in ("funct3", "funct7", "rd", "rs1", "rs2")]
    return f".insn r 0x{it.match & 0x7F:02x}, " + ", ".join(order), numbers


def fixed_text(it, place, width):
    return str(it.match >> place & ((1 << width) - 1))


def slot_bits(it, place, width):
    """The expressions of the bits of numbers that stand in a slot."""
    found, numbers = [], it.numbers()
    for piece in it.pieces:
        first = max(piece.place, place)
        last = min(piece.place + piece.high - piece.low, place + width - 1)
        if piece.field in numbers and first <= last:
            low, mask = piece.low + first - piece.place, (1 << (last - first + 1)) - 1
            found.append(f"((uint32_t)({piece.field}_) >> {low} & {mask}) << {first - place}")
    return found


def assembly_text(it, argument):
    """The statement `__asm__`. It stays in its place where it reads or writes more than registers
    of the base set, and holds memory fixed where it accesses it."""
    template, numbers = insn_text(it)
    names = {kind.removeprefix("Rd").removeprefix("Wr") for kind in it.kinds}
    volatile = names & {"Mem", "CustReg", "PC"} or "WrRD" not in it.kinds
    inputs = [f'[{name}] "r"({argument(name)})' for name in it.registers() if name != "rd"]
    inputs += [f'[{name}] "i"({expression})' for name, expression in numbers]
    output = f'[rd] "{"+" if it.keeps else "="}r"(ixt_rd)' if "WrRD" in it.kinds else ""
    lines = [
        f"    __asm__{' __volatile__' if volatile else ''}(",
        f'        "{template}"',
        f"        : {output}".rstrip(),
        f"        : {', '.join(inputs)}".rstrip(),
    ]
    if "Mem" in names:
        lines.append('        : "memory"')
    return lines + ["    );"]


def arguments_of(it):
    return [name for name in it.registers() if name != "rd" or it.keeps]


def function_text(it):
    """An inline function for an instruction without numbers."""
    result = "WrRD" in it.kinds
    words = ", ".join(f"uint32_t {name}" for name in arguments_of(it)) or "void"
    lines = [
        "static inline __attribute__((always_inline))",
        f"{'uint32_t' if result else 'void'} ixt_{it.name}({words})",
        "{",
    ]
    if result:
        lines.append(f"    uint32_t ixt_rd{' = rd' if it.keeps else ''};")
    lines += assembly_text(it, lambda name: name)
    if result:
        lines.append("    return ixt_rd;")
    return "\n".join(lines + ["}"])


def macro_text(it):
    """A macro for an instruction with numbers, which have to be constants."""
    result = "WrRD" in it.kinds
    words = ", ".join(f"{name}_" for name in arguments_of(it) + it.numbers())
    lines = [f"#define ixt_{it.name}({words})", "({"]
    lines += [range_text(it, field) for field in it.numbers()]
    if result:
        lines.append(f"    uint32_t ixt_rd{' = (rd_)' if it.keeps else ''};")
    lines += assembly_text(it, lambda name: f"(uint32_t)({name}_)")
    lines += ["    ixt_rd;"] if result else []
    return " \\\n".join(lines + ["})"])


def range_text(it, field):
    """The check of a number: its range, and zeros where the encoding does not give its bits."""
    pieces = [piece for piece in it.pieces if piece.field == field]
    width = max(piece.high for piece in pieces) + 1
    given = sum((1 << piece.high + 1) - (1 << piece.low) for piece in pieces)
    absent = (1 << width) - 1 & ~given
    return (
        f"    _Static_assert(({field}_) >= -{1 << width - 1}LL && ({field}_) < {1 << width}LL && "
        f'(({field}_) & {absent}LL) == 0, "{field} of {it.name} is outside of its range");'
    )


# Images


def found_compiler(name, package="gcc-riscv64-unknown-elf", option="--cc"):
    path = shutil.which(name)
    if path is None:
        raise BadInput(
            f"the compiler {name} was not found: install Debian's {package}, "
            f"or name another one by {option}"
        )
    return path


def run_compiler(words, sources):
    """Runs a compiler, whose messages go to standard error."""
    done = subprocess.run(
        words, stdout=subprocess.PIPE, stderr=subprocess.PIPE, stdin=subprocess.DEVNULL, check=False
    )
    sys.stderr.write(done.stderr.decode("utf-8", "replace"))
    if done.returncode:
        names = " ".join(map(str, sources))
        raise BadInput(f"{Path(words[0]).name} refused {names} (status {done.returncode})")


def compile_elf(compiler, sources, words, elf):
    """Compiles and links sources with the start code. `words` are further words of the compiler."""
    for source in sources:
        if not Path(source).is_file():
            raise BadInput(f"{source}: there is no such file")
    run_compiler(
        [found_compiler(compiler), *FLAGS, *words, *LINK_FLAGS]
        + ["-T", str(START / "link.ld"), str(START / "start.s"), str(START / "memory.c")]
        + [*map(str, sources), "-lgcc", "-o", str(elf)],
        sources,
    )


def segments_of(elf):
    """The bytes of the code and those of the data in an ELF file that link.ld made."""
    try:
        data = Path(elf).read_bytes()
    except OSError as fault:
        raise BadInput(f"{elf}: the linker left no such file: {fault.strerror}") from fault
    if data[:6] != b"\x7fELF\x01\x01" or len(data) < 52:
        raise BadInput(f"{elf}: the linker wrote no ELF file of 32 bits")
    (table,) = struct.unpack_from("<I", data, 28)
    size, count = struct.unpack_from("<HH", data, 42)
    code, filled = b"", b""
    for at in range(table, table + size * count, size):
        kind, offset, address, _, length = struct.unpack_from("<5I", data, at)
        part = data[offset : offset + length]
        if kind != 1 or length == 0:  # (an empty segment may have any address)
            continue
        if address == 0:
            code = part
        else:
            filled = bytes(address - MEMORY) + part
    return code, filled


def words_of(data):
    padded = data + bytes(-len(data) % 4)
    return [it for (it,) in struct.iter_unpack("<I", padded)]


def fill_words(data):
    """Code that stores words into memory, which is 0 before, and returns: t0 has the value, t1 the
    place, of which a store reaches 4 KiB."""
    code, place, value = [], None, 0
    for number, word in enumerate(data):
        if word == 0:
            continue
        address = MEMORY + 4 * number
        upper = address + 0x800 & 0xFFFFF000
        if upper != place:
            place = upper
            code.append(upper | 6 << 7 | 0x37)  # lui t1, ..
        if word != value:
            value = word
            code += value_words(word)
        offset = address - place & 0xFFF
        code.append(offset >> 5 << 25 | 5 << 20 | 6 << 15 | 2 << 12 | (offset & 31) << 7 | 0x23)
    return code + [0x00008067]  # jalr zero, 0(ra)


def value_words(word):
    """`lui` and `addi` that put a word into t0, those that are needed."""
    upper, low = word + 0x800 & 0xFFFFF000, word & 0xFFF
    if upper == 0:
        return [low << 20 | 5 << 7 | 0x13]
    return [upper | 5 << 7 | 0x37] + ([low << 20 | 5 << 15 | 5 << 7 | 0x13] if low else [])


def image_text(elf, names):
    """The image of an ELF file, with a line that says how many words are code and how many fill
    memory."""
    code, data = segments_of(elf)
    fill = fill_words(words_of(data))
    words = words_of(code) + fill
    if len(words) > MOST_WORDS:
        raise BadInput(
            f"the image has {len(words)} words, of which {len(fill)} fill memory with {len(data)} "
            f"bytes of initialised data: there may be {MOST_WORDS}"
        )
    head = f"# {names}: {len(words) - len(fill)} words of code, {len(fill)} that fill memory"
    return "\n".join([head] + [f"{it:08x}" for it in words]) + "\n"


def make_image(options, sources, extension, words):
    """The image of sources; the header of an extension is on the path of includes."""
    with tempfile.TemporaryDirectory() as room:
        if extension:
            header = Path(room) / f"{Path(extension).stem}.h"
            write_output(header, header_text(options.ixt, extension))
        elf = options.elf or Path(room) / "program.elf"
        compile_elf(options.cc, sources, [f"-O{options.level}", "-I", room, *words], elf)
        return image_text(elf, " ".join(Path(it).name for it in sources))


def add_compiler_options(parser):
    parser.add_argument(
        "--cc", metavar="PATH", default=COMPILER, help=f"the compiler (else {COMPILER})"
    )
    parser.add_argument(
        "-O", dest="level", metavar="LEVEL", default="2", help="the compiler's -O (else 2)"
    )


def parsed():
    parser = argparse.ArgumentParser(
        description="Makes an image for ixt of C and assembly sources, or a C header with the "
        "instructions of an extension. The run begins at `main`, and its result is in x10 at the "
        "break that ends the run.",
        epilog="Exit status: 0 done, 1 an input is refused, 2 a wrong command line. "
        "Example: tools/user/c_to_image.py --extension examples/dot-product.core_desc "
        "examples/c/filter.c -o filter.hex",
    )
    parser.add_argument("sources", nargs="*", metavar="SOURCE", help="C (.c) or assembly (.s, .S)")
    parser.add_argument("--header", metavar="EXT", help="write the header of an extension instead")
    parser.add_argument(
        "--extension",
        metavar="EXT",
        help='an extension NAME.core_desc, for #include "NAME.h" in the sources',
    )
    parser.add_argument("-D", dest="defined", metavar="NAME[=VALUE]", action="append", default=[])
    parser.add_argument("-I", dest="folders", metavar="FOLDER", action="append", default=[])
    parser.add_argument("--elf", metavar="FILE", help="keep the linked ELF file, for objdump")
    add_compiler_options(parser)
    add_program_option(parser)
    add_output_option(parser)
    options = parser.parse_args()
    if bool(options.sources) == bool(options.header) or (options.header and options.extension):
        parser.error("either sources or --header EXT is needed")
    return options


def main():
    options = parsed()
    if options.header:
        text = header_text(options.ixt, options.header)
    else:
        words = [f"-D{it}" for it in options.defined] + [f"-I{it}" for it in options.folders]
        text = make_image(options, options.sources, options.extension, words)
    write_output(options.output, text)


if __name__ == "__main__":
    finish(main)
