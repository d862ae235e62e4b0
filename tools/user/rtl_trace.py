#!/usr/bin/env python3
"""Prints the trace of the core of examples/rtl with an extension's modules, in the form that
`ixt audit` judges.

The core of five stages, a wrapper and the modules that `ixt build` prints run in Icarus Verilog.
The simulation says what stands where, what retires, and for what reason of the core's own a cell
stays. Where the wrapper holds a cell, it does not say why: the reason is worked out here from the
cells of the row and from what the report says of the behaviours. `ixt run` is not asked.
"""
import argparse
import re
import tempfile
from collections import Counter
from pathlib import Path
from typing import NamedTuple

from icarus import add_icarus_options, find_icarus
from ixt_texts import BadInput, add_program_option, finish, natural
from rtl_compare import (
    MOST_ROWS,
    STAGES,
    Case,
    bench_of,
    found_lines,
    read_waits,
    simulated,
    words_of,
    wrapper_of,
)

RD, EX, WB = 1, 2, 4
CELL = re.compile(r"(\d+)@([0-9a-f]{8})(?:/(.+))?", re.ASCII)
REGISTER = re.compile(r"(Rd|Wr)CustReg\.(\d+)", re.ASCII)


class Uses(NamedTuple):
    """What an instruction does, by its operations: the custom registers that it reads or writes,
    those that it writes behind EX, those that its unit writes, for how many rows its module goes on
    in the last stage, and its unit or None."""

    customs: set
    late: set
    spawned: set
    tail: int
    unit: int | None


NOTHING = Uses(set(), set(), set(), 0, None)


class Cell(NamedTuple):
    """An instruction in a stage: its serial, its address, and why it stays or None."""

    serial: int
    address: int
    reason: str | None


def uses_of(behaviour, unit):
    """What a scheduled behaviour does."""
    customs, late, spawned = set(), set(), set()
    for op in behaviour.operations:
        form = REGISTER.fullmatch(op.kind)
        if not form:
            continue
        number = int(form[2])
        customs.add(number)
        if form[1] == "Wr" and unit is not None and op.early >= STAGES:
            spawned.add(number)
        elif form[1] == "Wr" and op.time > EX:
            late.add(number)
    last = max((op.time for op in behaviour.operations), default=0)
    tail = max(0, last - WB) if behaviour.mode == "Tight" else 0
    return Uses(customs, late, spawned, tail, unit)


class Design:
    """What the words of a program do on the core, as far as a wrapper's reasons ask."""

    def __init__(self, wrapper):
        self.instructions = wrapper.listing.instructions
        self.uses, self.blocks, units = {}, set(), 0
        for behaviour in wrapper.report.behaviours:
            decoupled = behaviour.mode == "Decoupled"
            self.uses[behaviour.name] = uses_of(behaviour, units if decoupled else None)
            units += decoupled
            if behaviour.mode == "Always":
                self.blocks |= self.uses[behaviour.name].customs

    def uses_of(self, word):
        for it in self.instructions:
            if word & it.mask == it.match:
                return self.uses[it.name]
        return NOTHING


class Reasons:
    """The reasons that the rows of a simulation lack, row by row."""

    def __init__(self, design, words):
        self.design = design
        self.words = words
        self.owed = {}  # what retired instructions still owe: a serial, and custom registers
        self.tailed = Counter()  # for how many rows a serial was held for its module

    def uses(self, cell):
        return self.design.uses_of(self.words[cell.address // 4])

    def least(self, customs, owners):
        """The least of some registers that someone writes, with the least serial that does, or
        None."""
        for number in sorted(customs):
            serials = [serial for serial, registers in owners.items() if number in registers]
            if serials:
                return f"c{number},{min(serials)}"
        return None

    def board(self, cells):
        older = {it.serial: self.uses(it).spawned for it in cells[EX:] if it}
        found = self.least(self.uses(cells[RD]).customs, self.owed | older)
        return f"Board({found})" if found else None

    def custom(self, cells):
        older = {it.serial: self.uses(it).late for it in cells[EX + 1 :] if it}
        asked = self.uses(cells[EX]).customs | self.design.blocks
        found = self.least(asked, older)
        return f"Custom({found})" if found else None

    def last(self, cells):
        uses, serial = self.uses(cells[WB]), cells[WB].serial
        if uses.tail > self.tailed[serial]:
            self.tailed[serial] += 1
            return f"Tail({uses.tail - self.tailed[serial] + 1})"
        return None if uses.unit is None else f"UnitFull({uses.unit})"

    def reason(self, stage, cells):
        """Why the wrapper holds the cell of a stage; `Behind` where nothing is found, which no
        audit accepts unless it is true."""
        found = {RD: self.board, EX: self.custom, WB: self.last}[stage](cells)
        return found or "Behind"

    def row(self, line):
        """The line of a row with all its reasons."""
        parts = line.split(" ")
        forms = [CELL.fullmatch(part) for part in parts[1 : STAGES + 1]]
        cells = [form and Cell(int(form[1]), int(form[2], 16), form[3]) for form in forms]
        for stage, cell in enumerate(cells):
            if cell and cell.reason == "held":
                reason = self.reason(stage, cells)
                parts[stage + 1] = f"{cell.serial}@{cell.address:08x}/{reason}"
        self.go_on(cells, parts[STAGES + 1 :])
        return " ".join(parts)

    def go_on(self, cells, marks):
        """Keeps what retires and still owes a write, and lets go what is written."""
        for mark in marks:
            if mark[0] == "r" and self.uses(cells[WB]).spawned:
                self.owed[cells[WB].serial] = self.uses(cells[WB]).spawned
            elif mark[0] == "w":
                self.owed.pop(int(mark[1:]), None)


def trace_of(lines, design, words):
    """The lines of a simulation with all reasons."""
    reasons, in_state, trace = Reasons(design, words), False, []
    for line in lines:
        in_state = in_state or line == "state"
        is_row = line[:1].isdigit() and not in_state
        trace.append(reasons.row(line) if is_row else line)
    return trace


def parse_options():
    parser = argparse.ArgumentParser(
        description="Prints the trace of the core of examples/rtl with the modules of an extension, "
        "simulated in Icarus Verilog, in the form that `ixt audit` judges.",
        epilog="Exit status: 0 the trace is printed; 1 an input is refused or a tool is missing; "
        "2 a wrong command line.",
    )
    parser.add_argument("wrapper", metavar="WRAPPER", type=Path, help="the wrapper in Verilog")
    parser.add_argument("extension", metavar="EXT", type=Path, help="its extension")
    parser.add_argument("sheet", metavar="SHEET", help="the datasheet of a core of five stages")
    parser.add_argument("image", metavar="IMAGE", help="the program, an image or a source (.s)")
    parser.add_argument("waits", metavar="WAITS", help="the waits of the memory")
    parser.add_argument("rows", metavar="CYCLES", type=natural, help="the most cycles")
    add_icarus_options(parser)
    add_program_option(parser)
    options = parser.parse_args()
    if options.rows > MOST_ROWS:
        parser.error(f"CYCLES goes up to {MOST_ROWS}")
    return options


def main():
    options = parse_options()
    find_icarus(options)
    with tempfile.TemporaryDirectory() as place:
        room = Path(place)
        wrapper = wrapper_of(options, options.wrapper.stem, options.extension, options.wrapper)
        bench = bench_of(options, wrapper, room)
        words = words_of(options, options.extension, options.image, room)
        case = Case(options.image, words, read_waits(options.waits))
        text = simulated(options, bench, case, room / "case")
    lines = found_lines(text, bench.listing.widths)
    if not lines or lines[-1] == "" or "state" not in lines:
        raise BadInput(f"{options.wrapper}: the simulation prints no state")
    print("\n".join(trace_of(lines, Design(wrapper), words)))


if __name__ == "__main__":
    finish(main)
