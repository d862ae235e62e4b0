#!/usr/bin/env python3
"""Runs the extensions of examples/literature through all commands, compares the results with those
of published definitions, and writes the table of docs/LITERATURE.md.

Each extension is listed, its program is assembled and run one instruction at a time, and on each
core it is scheduled (and the schedule certified), built and run, over a memory that never waits and
over one that does. The registers and the memory at the end must be those of NAME.expected, and
these must be what the definition gives, which stands below in Python. All states of a program must
be the same.
"""
import argparse
import math
import os
import re
import shutil
import subprocess
import sys
import tempfile
from concurrent.futures import ThreadPoolExecutor
from pathlib import Path
from typing import NamedTuple

from ixt_texts import (
    ROOT,
    BadInput,
    Trace,
    add_output_option,
    add_program_option,
    finish,
    lines_of,
    parse_report,
    positive,
    refusal_of,
    run_program,
    shown,
    write_output,
)
from trace_summary import account

FOLDER = ROOT / "examples" / "literature"
WAITS = ROOT / "examples" / "some.waits"
CELL_COUNTS = ROOT / "tools" / "cell_counts.py"
CORES = ["three", "four", "five", "three_f", "five_f"]
MOST_STEPS = 200_000
MEMORY = 0x8000_0000
REGISTER = re.compile(r"  reg \[(\d+):0\] \w+;")
COLUMNS = ["Extension", "Core", "Mode", "Retired", "Cycles", "Register bits"]
YOSYS_COLUMNS = ["Cells", "Gates", "Flip-flops", "Depth"]


# What the definitions give: values by the first words of the state's lines, as `x10` or
# `m 80000000`


def in_memory(address, data):
    """The lines of bytes in memory from an address on."""
    return {
        f"m {address + at:08x}": int.from_bytes(data[at : at + 4], "little")
        for at in range(0, len(data), 4)
    }


def words_in_memory(words):
    """The lines of words at the start of the memory."""
    return in_memory(MEMORY, b"".join(word.to_bytes(4, "little") for word in words))


def xorshift(count):
    """The first numbers of the generator in "Xorshift RNGs" (2003), from the seed used there."""
    found, number = [], 2463534242
    for _ in range(count):
        number ^= number << 13 & 0xFFFFFFFF
        number ^= number >> 17
        number ^= number << 5 & 0xFFFFFFFF
        found.append(number)
    return found


def auto_increment():
    """The squares of 1 to 16 in memory, their sum, and the address behind them."""
    squares = [number * number for number in range(1, 17)]
    return {"x10": sum(squares), "c0": MEMORY + 64} | words_in_memory(squares)


def dot_product():
    """Two vectors of 32 signed bytes in memory, and their dot product."""
    words = xorshift(16)
    numbers = [
        (byte ^ 0x80) - 0x80 for byte in b"".join(it.to_bytes(4, "little") for it in words)
    ]
    product = sum(a * b for a, b in zip(numbers[:32], numbers[32:]))
    return {"x10": product % 2**32} | words_in_memory(words)


def indirect_jump():
    """The number whose binary digits the routines append."""
    return {"x10": 1973}


def field_product(a, b):
    """The product in the field of 256 elements that AES has, by the polynomial 0x11b."""
    product = 0
    while b:
        product ^= a if b & 1 else 0
        a = a << 1 ^ (0x11B if a & 0x80 else 0)
        b >>= 1
    return product


def s_box_of(byte):
    """The inverse in the field (0 for 0), then the affine map."""
    inverse = next((it for it in range(256) if field_product(byte, it) == 1), 0)
    turned = [(inverse << n | inverse >> (8 - n)) & 0xFF for n in range(5)]
    return turned[0] ^ turned[1] ^ turned[2] ^ turned[3] ^ turned[4] ^ 0x63


def s_box():
    """The S-box of all bytes, and behind them a state of FIPS 197 behind its first SubBytes."""
    table = bytes(s_box_of(byte) for byte in range(256))
    # (as FIPS 197 prints it)
    state = bytes.fromhex("d42711ae e0bf98f1 b8b45de5 1e415230")
    return in_memory(MEMORY, table) | in_memory(MEMORY + 256, state)


SPARKLE_CONSTANTS = [
    0xB7E15162,
    0xBF715880,
    0x38B4DA56,
    0x324E7738,
    0xBB1185EB,
    0x4F7C7B57,
    0xCFBFA1C8,
    0xC2B3293D,
]


def turned_right(word, bits):
    return (word >> bits | word << (32 - bits)) & 0xFFFFFFFF


def alzette(x, y, constant):
    """The box Alzette over two words."""
    for of_y, of_x in [(31, 24), (17, 17), (0, 31), (24, 16)]:
        x = (x + turned_right(y, of_y)) & 0xFFFFFFFF
        y ^= turned_right(x, of_x)
        x ^= constant
    return x, y


def half_mix(words):
    """What a half gives to the other one: its sum, turned by 16 bits, plus the low half of that."""
    total = 0
    for word in words:
        total ^= word
    return turned_right(total, 16) ^ (total & 0xFFFF)


def sparkle_permutation(state, steps):
    """Sparkle over branches, pairs of words."""
    half = len(state) // 2
    for step in range(steps):
        state[0] = (state[0][0], state[0][1] ^ SPARKLE_CONSTANTS[step % 8])
        state[1] = (state[1][0], state[1][1] ^ step)
        state = [alzette(x, y, SPARKLE_CONSTANTS[at]) for at, (x, y) in enumerate(state)]
        left, right = state[:half], state[half:]
        of_x, of_y = half_mix(x for x, _ in left), half_mix(y for _, y in left)
        right = [(a ^ x ^ of_y, b ^ y ^ of_x) for (a, b), (x, y) in zip(right, left)]
        state = right[1:] + right[:1] + left
    return state


def sparkle():
    """The words of the state 0, 1, 2 .. 7 after 7 steps of Sparkle of 256 bits."""
    state = sparkle_permutation([(0, 1), (2, 3), (4, 5), (6, 7)], 7)
    words = [word for branch in state for word in branch]
    return {f"x{10 + at}": word for at, word in enumerate(words)}


def square_root():
    """Roots, rounded down, of 32 numbers in memory, and of four at the ends of ranges."""
    corners = [0, 2**32 - 1, 65535**2, 65535**2 - 1]
    roots = {f"x{20 + at}": math.isqrt(number) for at, number in enumerate(corners)}
    # (the first number is the seed)
    numbers = [2463534242, *xorshift(31)]
    return roots | words_in_memory([math.isqrt(number) for number in numbers])


def zero_overhead_loop():
    """The Fibonacci number 40, and no turns left."""
    number, following = 0, 1
    for _ in range(40):
        number, following = following, number + following
    return {"x10": number, "c2": 0}


class Case(NamedTuple):
    """An extension: its name, the name of its program and of the expected results, and the
    definition of these."""

    name: str
    program: str
    definition: object


CASES = [
    Case("auto-increment", "auto-increment", auto_increment),
    Case("dot-product", "dot-product", dot_product),
    Case("indirect-jump", "indirect-jump", indirect_jump),
    Case("s-box", "s-box", s_box),
    Case("sparkle", "sparkle", sparkle),
    Case("square-root", "square-root", square_root),
    Case("square-root-apart", "square-root", square_root),
    Case("zero-overhead-loop", "zero-overhead-loop", zero_overhead_loop),
]


# Expected results


EXPECTED_LINE = re.compile(r"(x\d+|c\d+|m [0-9a-f]{8}) ([0-9a-f]{8})", re.ASCII)


def expected_text(case):
    """The text of a file of expected results."""
    lines = [f"{place} {value:08x}\n" for place, value in case.definition().items()]
    return f"# {case.definition.__doc__}\n{''.join(lines)}"


def read_expected(path):
    """The values of a file of expected results by their places; `#` starts a comment."""
    found = {}
    for number, line in enumerate(lines_of(path), 1):
        line = line.partition("#")[0].strip()
        form = EXPECTED_LINE.fullmatch(line)
        if line and not form:
            raise BadInput(f"{path}, line {number}: {shown(line)} is no expected result")
        if form:
            found[form[1]] = int(form[2], 16)
    return found


def expected_of(case):
    """The expected results of a case: those of its file, which are what the definition gives."""
    path = FOLDER / f"{case.program}.expected"
    found, given = read_expected(path), case.definition()
    for place in given.keys() | found.keys():
        if found.get(place) != given.get(place):
            raise BadInput(
                f"{path}: {place} is not what the definition gives: --write-expected writes the "
                "file anew"
            )
    return found


def values_of(text):
    """The values at the end of a run by their places, and its state as text."""
    state = text.rpartition("state\n")[2]
    found = {}
    for line in state.splitlines():
        place, _, value = line.rpartition(" ")
        found[place] = int(value, 16)
    return found, state


def compare(expected, text, what):
    """BadInput where the state behind a run has another value than the expected one; what does not
    stand in a state is 0."""
    found, _ = values_of(text)
    for place, value in expected.items():
        if found.get(place, 0) != value:
            raise BadInput(f"{what}: {place} is {found.get(place, 0):08x} in place of {value:08x}")


# Running a case


def answer_of(options, words, what):
    """The output of a command that must be done."""
    answer = run_program(options.ixt, words)
    if answer.status:
        raise BadInput(f"{what}: `{words[0]}` gives `{refusal_of(answer)}`")
    return answer.text


class Run(NamedTuple):
    """A case on a core: the fields of its row but those of Yosys, and the file of its modules."""

    fields: list
    modules: Path


def run_case(options, case, room):
    """The runs of a case on all cores."""
    extension, image = FOLDER / f"{case.name}.core_desc", room / f"{case.name}.hex"
    expected = expected_of(case)
    answer_of(options, ["check", extension], case.name)
    words = ["asm", extension, FOLDER / f"{case.program}.s"]
    image.write_text(answer_of(options, words, case.name), encoding="utf-8")
    steps = answer_of(options, ["seq", extension, image, MOST_STEPS], case.name)
    if "\nstop Ebreak\n" not in steps:
        raise BadInput(f"{case.name}: `seq` does not come to the program's end")
    compare(expected, steps, f"{case.name}, one instruction at a time")
    return [run_on_core(options, case, core, image, steps, room) for core in CORES]


def run_on_core(options, case, core, image, steps, room):
    """The run of a case on a core."""
    extension, sheet = FOLDER / f"{case.name}.core_desc", ROOT / "examples" / f"{core}.toml"
    what = f"{case.name} on {core}"
    report = room / "schedule.report"
    text = answer_of(options, ["schedule", extension, sheet], what)
    report.write_text(text, encoding="utf-8")
    answer_of(options, ["certify", report], what)
    modes = modes_of(parse_report(text.splitlines(), what))
    built = answer_of(options, ["build", extension, sheet], what)
    modules = room / f"{case.name}-{core}.v"
    modules.write_text(built, encoding="utf-8")
    bits = sum(int(it) + 1 for it in REGISTER.findall(built))
    never = room / "none.waits"
    never.write_text("", encoding="utf-8")
    words = ["run", extension, sheet, image, never, MOST_STEPS]
    sums = run_in_pipeline(options, words, what, steps, room)
    words[4] = WAITS
    run_in_pipeline(options, words, f"{what} with waits", steps, room)
    return Run([case.name, core, modes, sums.retired, sums.cycles, bits], modules)


def run_in_pipeline(options, words, what, steps, room):
    """The sums of a run in the pipeline, which must end as the one of single steps."""
    trace = room / "run.trace"
    text = answer_of(options, words, what)
    trace.write_text(text, encoding="utf-8")
    sums = account(Trace(str(trace)))
    if sums.stop != "Ebreak":
        raise BadInput(f"{what}: the run does not come to the program's end")
    compare(values_of(steps)[0], text, what)
    if values_of(text)[1] != values_of(steps)[1]:
        raise BadInput(f"{what}: the state is not the one of single steps")
    return sums


def modes_of(report):
    """The mode of all behaviours, or of each one where they differ."""
    modes = [(it.name, it.mode) for it in report.behaviours]
    if len({mode for _, mode in modes}) == 1:
        return modes[0][1]
    return ", ".join(f"{name} {mode}" for name, mode in modes)


# Yosys


def run_tool(words, what, folder):
    """The output of another program."""
    done = subprocess.run(
        words, cwd=folder, stdout=subprocess.PIPE, stderr=subprocess.STDOUT, check=False
    )
    text = done.stdout.decode("utf-8", "replace")
    if done.returncode:
        said = text.strip().splitlines() or ["no message"]
        raise BadInput(f"{what}: {Path(words[0]).name} failed: {said[-1]}")
    return text


def measured(run):
    """Of the modules of a run: the cells that compute; and after synthesis the gates, the
    flip-flops, and the gates on the longest path between registers or ports."""
    what, folder = run.modules.name, run.modules.parent
    counted = run_tool([sys.executable, str(CELL_COUNTS), str(run.modules)], what, folder)
    cells = sum(int(it) for it in re.findall(r"; Yosys (\d+), \d+;", counted))
    script = f"read_verilog {what}; synth; opt_clean; ltp -noff; stat"
    text = run_tool(["yosys", "-p", script], what, folder)
    levels = re.findall(r"Longest topological path in \w+ \(length=(\d+)\)", text)
    statistics = text.rpartition("Printing statistics.")[2]
    # (a design of several modules has no sum, since none of them is the top)
    counts = re.findall(r"^ +(\$_\w+_) +(\d+)$", statistics, re.MULTILINE)
    flips = sum(int(count) for kind, count in counts if "DFF" in kind)
    gates = sum(int(count) for kind, count in counts) - flips
    return [cells, gates, flips, max(map(int, levels), default=0)]


def measure_all(options, runs):
    """What Yosys says of each run's modules, or None where it is not asked or not there."""
    if not options.yosys:
        return None
    if shutil.which("yosys") is None:
        print(
            "literature.py: yosys was not found, so its columns are left out", file=sys.stderr
        )
        return None
    with ThreadPoolExecutor(options.jobs) as workers:
        return list(workers.map(measured, runs))


# The table


def table_of(runs, measures):
    """The table, a list of rows of fields."""
    rows = [COLUMNS + (YOSYS_COLUMNS if measures else [])]
    for at, run in enumerate(runs):
        rows.append([*run.fields, *(measures[at] if measures else [])])
    return [[str(field) for field in row] for row in rows]


def table_text(rows):
    """The table as Markdown."""
    lines = [f"| {' | '.join(row)} |" for row in rows]
    lines.insert(1, "|---" * 3 + "|---:" * (len(rows[0]) - 3) + "|")
    return "\n".join(lines) + "\n"


def check_document(path, rows):
    """BadInput where a row of a document is another one; columns that are not measured here are
    not compared."""
    found = {}
    for line in lines_of(path):
        fields = [field.strip() for field in line.strip("|").split("|")]
        if line.startswith("|"):
            found[tuple(fields[:2])] = fields
    for row in rows:
        there = found.get(tuple(row[:2]), [])
        if there[: len(row)] != row:
            raise BadInput(
                f"{path}: the row of {row[0]} on {row[1]} is `{' | '.join(there)}` "
                f"in place of `{' | '.join(row)}`"
            )


def parse_options():
    parser = argparse.ArgumentParser(
        description="Runs the extensions of examples/literature, compares their results with "
        "those of published definitions, and writes a table: modes, cycles, registers, and with "
        "Yosys cells and depth.",
        epilog="Exit status: 0 all results are the expected ones, 1 one is not or an input is "
        "refused, 2 a wrong command line.",
    )
    names = [case.name for case in CASES]
    parser.add_argument(
        "names", nargs="*", metavar="NAME", help=f"which (else all): {', '.join(names)}"
    )
    parser.add_argument(
        "--no-yosys", dest="yosys", action="store_false", help="leave out what Yosys measures"
    )
    parser.add_argument(
        "--jobs",
        metavar="N",
        type=positive,
        default=os.cpu_count(),
        help="how many Yosys run at a time (else one for each processor)",
    )
    parser.add_argument(
        "--check", metavar="FILE", help="compare the table with the one in a document"
    )
    parser.add_argument(
        "--write-expected",
        action="store_true",
        help="write the files of expected results by the definitions, and run nothing",
    )
    add_program_option(parser)
    add_output_option(parser)
    options = parser.parse_args()
    for name in options.names:
        if name not in names:
            parser.error(f"{name} is none of the extensions: {', '.join(names)}")
    return options


def run_all(options, cases, room):
    """The runs of all cases; each case that fails has a message, and then there are none."""
    runs, failed = [], 0
    for case in cases:
        try:
            runs += run_case(options, case, room)
        except BadInput as fault:
            failed += 1
            print(f"literature.py: {fault}", file=sys.stderr)
    if failed:
        raise BadInput(f"{failed} of {len(cases)} extensions failed")
    return runs


def main():
    options = parse_options()
    cases = [it for it in CASES if not options.names or it.name in options.names]
    if options.write_expected:
        for case in cases:
            write_output(str(FOLDER / f"{case.program}.expected"), expected_text(case))
        return
    # (a program that cannot be run is told of once, and not by each extension)
    run_program(options.ixt, ["check", FOLDER / f"{cases[0].name}.core_desc"])
    with tempfile.TemporaryDirectory() as place:
        runs = run_all(options, cases, Path(place))
        rows = table_of(runs, measure_all(options, runs))
    if options.check:
        check_document(options.check, rows)
    write_output(options.output, table_text(rows))


if __name__ == "__main__":
    finish(main)
