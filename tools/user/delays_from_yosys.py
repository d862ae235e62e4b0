#!/usr/bin/env python3
"""Delays of the kinds of operations by Yosys, as a datasheet for `ixt schedule`.

Each operator is made a module of its own and synthesized. With a liberty file its cells are mapped
and timed, and the delays are picoseconds of them without wires. Without one a delay is the count of
gates on the longest path (Yosys' `ltp`) times the delay of one gate, as --level says it.
"""
import argparse
import math
import re
import shutil
import subprocess
import tempfile
from pathlib import Path
from typing import NamedTuple

from ixt_texts import (
    CORE_KINDS,
    GATE_KINDS,
    WIRE_KINDS,
    BadInput,
    add_output_option,
    finish,
    positive,
    write_output,
)

MOST_DELAY = 1_000_000
MOST_WIDTH = 128
MAPPING = "+strash;dretime;map;buffer,-c;upsize;dnsize;stime,-p"


class Operator(NamedTuple):
    """The Verilog of an operator: the widths of its operands and of its result, the right side, and
    what it is in words."""

    operands: list
    result: int
    right: str
    words: str


def operators(width, entries, entry_width):
    """The operators of all kinds that are gates, at a width of the operands."""
    two, one = [width, width], [width]
    amount = max(1, (width - 1).bit_length())
    by_amount = f"by an amount of {amount} bits; wires where it is constant"
    found = {
        "add": Operator(two, width + 1, "a + b", "the exact sum"),
        "sub": Operator(two, width + 1, "{1'b0, a} - {1'b0, b}", "the exact difference"),
        "mul": Operator(two, 2 * width, "a * b", "the exact product"),
        "neg": Operator(one, width + 1, "-{1'b0, a}", "less the number"),
        "not": Operator(one, width, "~a", "all bits turned"),
        "shl": Operator([width, amount], width, "a << b", by_amount),
        "shr": Operator([width, amount], width, "a >> b", by_amount),
        "land": Operator(two, 1, "(a != 0) && (b != 0)", "both are not 0"),
        "lor": Operator(two, 1, "(a != 0) || (b != 0)", "one is not 0"),
        "lnot": Operator(one, 1, "a == 0", "the number is 0"),
        "mux": Operator([width, width, 1], width, "c ? a : b", "a choice by one bit"),
        "rom": Operator(
            [max(1, (entries - 1).bit_length())],
            entry_width,
            "",
            f"a table of {entries} entries of {entry_width} bits",
        ),
    }
    for kind, sign in [("and", "&"), ("or", "|"), ("xor", "^")]:
        found[kind] = Operator(two, width, f"a {sign} b", "bit by bit")
    signs = {"eq": "==", "ne": "!=", "lt": "<", "le": "<=", "gt": ">", "ge": ">="}
    for kind, sign in signs.items():
        found[kind] = Operator(two, 1, f"a {sign} b", "a comparison")
    return {kind: found[kind] for kind in GATE_KINDS}


def module_text(kind, operator, entries):
    ports = [f"input [{width - 1}:0] {name}" for name, width in zip("abc", operator.operands)]
    ports.append(f"output {'reg ' if kind == 'rom' else ''}[{operator.result - 1}:0] y")
    head = f"module ixt_{kind}({', '.join(ports)});"
    if kind != "rom":
        return f"{head}\n  assign y = {operator.right};\nendmodule\n"
    return "\n".join(
        [
            head,
            "  always @* case (a)",
            *table_lines(entries, operator),
            "    default: y = 0;",
            "  endcase",
            "endmodule",
            "",
        ]
    )


def table_lines(entries, operator):
    """Entries without a pattern, by a linear congruence, so that they are not folded into something
    simpler."""
    lines, number = [], 1
    for at in range(entries):
        number = (1664525 * number + 1013904223) % 2**32
        value = (number * number >> 16) % 2**operator.result
        lines.append(f"    {operator.operands[0]}'d{at}: y = {operator.result}'h{value:x};")
    return lines


def run_yosys(yosys, modules, liberty):
    """What Yosys prints on the modules: paths by `ltp`, or with a liberty file the delays of
    ABC."""
    program = shutil.which(yosys)
    if program is None:
        raise BadInput(f"{yosys} was not found: install Yosys, or name it by --yosys PATH")
    with tempfile.TemporaryDirectory() as room:
        Path(room, "kinds.v").write_text(modules, encoding="utf-8")
        script = "read_verilog kinds.v; synth; opt_clean; "
        if liberty is None:
            script += "ltp"
        else:
            copy_liberty(liberty, Path(room, "cells.lib"))
            script += f"abc -liberty cells.lib -script {MAPPING}"
        done = subprocess.run(
            [program, "-p", script],
            cwd=room,
            stdout=subprocess.PIPE,
            stderr=subprocess.STDOUT,
            check=False,
        )
    text = done.stdout.decode("utf-8", "replace")
    if done.returncode:
        faults = [line for line in text.splitlines() if "ERROR" in line or "Error" in line] or [
            "no message"
        ]
        raise BadInput(f"Yosys failed: {faults[-1].strip()}")
    return text


def copy_liberty(liberty, place):
    try:
        text = Path(liberty).read_bytes()
    except OSError as fault:
        raise BadInput(f"{liberty}: {fault.strerror}") from fault
    if not re.search(rb"\blibrary\s*\(", text):
        raise BadInput(f"{liberty}: this is no liberty file, it has no `library (..)`")
    place.write_bytes(text)


def levels_of(text):
    """The gates on the longest path of each kind."""
    return {
        kind: int(count)
        for kind, count in re.findall(
            r"Longest topological path in ixt_(\w+) \(length=(\d+)\)", text
        )
    }


def delays_of(text):
    """The delay in picoseconds of each kind, as ABC has it."""
    found, kind = {}, None
    for line in text.splitlines():
        module = re.search(r"Extracting gate netlist of module `\\ixt_(\w+)'", line)
        delay = re.search(r"Delay\s*=\s*([0-9.]+) ps", line)
        if module:
            kind = module[1]
        elif delay and kind:
            found[kind] = float(delay[1])
    return found


def sheet_text(options, chosen, delays, origin):
    """A datasheet with these delays."""
    lines = [
        f"# Delays of operations on numbers of {options.width} bits: {origin}.",
        f'core = "{options.core}"',
        f"period = {options.period}",
        "",
        "[delay]",
    ]
    for kind, operator in chosen.items():
        lines.append(f"{f'{kind} = {delays[kind]}':<14} # {operator.words}")
    lines.append(f"# wires alone: {', '.join(WIRE_KINDS)}")
    lines.append(f"# of the core, whose timing report has them: {', '.join(CORE_KINDS)}")
    return "\n".join(lines) + "\n"


def check_delays(chosen, delays):
    missing = [kind for kind in chosen if kind not in delays]
    if missing:
        raise BadInput(f"Yosys gave no delay of {', '.join(missing)}")
    for kind in chosen:
        if delays[kind] > MOST_DELAY:
            raise BadInput(
                f"the delay {delays[kind]} of {kind} is more than a datasheet's {MOST_DELAY}: "
                "take a smaller --level"
            )


def chosen_kinds(options, parser):
    """The operators that are asked for."""
    found = operators(options.width, options.entries, options.entry_width)
    if options.kinds is None:
        return found
    names = options.kinds.split(",")
    for name in names:
        if name not in found:
            parser.error(f"{name} is no kind of gates: there are {', '.join(found)}")
    return {kind: found[kind] for kind in found if kind in names}


def add_measure_options(parser):
    """What is measured, and by which cells."""
    parser.add_argument(
        "--liberty", metavar="FILE", help="cells with their timing; the delays are picoseconds"
    )
    parser.add_argument(
        "--level",
        metavar="N",
        type=positive,
        default=30,
        help="without a liberty file: the delay of a gate (else 30)",
    )
    parser.add_argument(
        "--width", metavar="W", type=positive, default=32, help="bits of the operands (else 32)"
    )
    parser.add_argument(
        "--kinds", metavar="K,K..", help="the kinds that are measured (else all that are gates)"
    )
    parser.add_argument(
        "--entries",
        metavar="N",
        type=positive,
        default=256,
        help="entries of the table of `rom` (else 256)",
    )
    parser.add_argument(
        "--entry-width", metavar="W", type=positive, default=8, help="bits of an entry (else 8)"
    )
    parser.add_argument(
        "--yosys", metavar="PATH", default="yosys", help="Yosys (else yosys in the search path)"
    )


def add_sheet_options(parser):
    """What else the datasheet has."""
    parser.add_argument(
        "--core",
        choices=["three", "four", "five", "three_f", "five_f"],
        default="five",
        help="the core of the datasheet (else five)",
    )
    parser.add_argument(
        "--period",
        metavar="N",
        type=positive,
        default=1000,
        help="the period of the datasheet (else 1000)",
    )
    add_output_option(parser)


def parse_options():
    parser = argparse.ArgumentParser(
        description="Measures the delays of kinds of operations by Yosys, and writes a datasheet.",
        epilog="Exit status: 0 done, 1 an input is refused or Yosys is missing or fails, 2 a wrong "
        "command line. A register takes time too: make the period shorter than the clock's by the "
        "set-up time and the clock-to-output time of a flip-flop.",
    )
    add_measure_options(parser)
    add_sheet_options(parser)
    options = parser.parse_args()
    for name, number, most in [
        ("width", options.width, MOST_WIDTH),
        ("entries", options.entries, 4096),
        ("entry-width", options.entry_width, MOST_WIDTH),
        ("period", options.period, MOST_DELAY),
    ]:
        if number > most:
            parser.error(f"argument --{name}: {number} is more than {most}")
    return options, chosen_kinds(options, parser)


def main():
    options, chosen = parse_options()
    modules = "".join(
        module_text(kind, operator, options.entries) for kind, operator in chosen.items()
    )
    text = run_yosys(options.yosys, modules, options.liberty)
    if options.liberty is None:
        delays = {kind: count * options.level for kind, count in levels_of(text).items()}
        origin = f"gates on the longest path by Yosys' ltp, {options.level} each"
    else:
        delays = {kind: math.ceil(delay) for kind, delay in delays_of(text).items()}
        origin = f"picoseconds by Yosys and ABC with the cells of {Path(options.liberty).name}"
    check_delays(chosen, delays)
    write_output(options.output, sheet_text(options, chosen, delays, origin))


if __name__ == "__main__":
    finish(main)
