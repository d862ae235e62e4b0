#!/usr/bin/env python3
"""Simulates the core of examples/rtl with an extension's modules, as `ixt build` prints them, and
compares each cycle with `ixt run`.

The core of five stages, a wrapper and the modules run in Icarus Verilog, over programs, over
programs that look random, and over memories that wait. Compared are the text of the trace, row by
row (which instruction stands in each stage and stays there, retirements with the values of
registers and memory, late writes, flushes, the next fetch, the stop) and the state at the end. So is
the reason for which an instruction stays, but where it is the wrapper that holds it. A plant is a mistake that is put into a wrapper or
into the core, which this script must see.
"""
import argparse
import os
import random
import re
import tempfile
from collections import Counter
from concurrent.futures import ThreadPoolExecutor
from pathlib import Path
from typing import NamedTuple

from icarus import add_icarus_options, compile_verilog, find_icarus, simulate
from ixt_texts import (
    HOLD,
    ROOT,
    BadInput,
    Report,
    add_program_option,
    finish,
    lines_of,
    natural,
    parse_report,
    positive,
    read_source,
    refusal_of,
    run_program,
    shown,
)
from rtl_plants import PLANTS
from rtl_programs import Listing, listing_of, random_program, random_waits

DIFFERS = 3
FOLDER = ROOT / "examples" / "rtl"
EXAMPLES = ROOT / "examples"
SHEET = EXAMPLES / "five.toml"
SOME_WAITS = EXAMPLES / "some.waits"
NAMES = [
    "auto-increment",
    "square-root",
    "two-decoupled",
    "zero-overhead-loop",
    "indirect-jump",
    "mixed",
]
CORE = ["bench.v", "core_five.v", "base_set.v", "parts.v"]
MOST_ROWS = 200_000
RANDOM_WORDS = 40
STAYS = re.compile(rf"/({HOLD})")
CUSTOM = re.compile(r"\bc(\d+)([= ])([0-9a-fxz]+)")
ROW = re.compile(r"(\d+) ")
CELL = re.compile(r" (?:-|\d+@)")
STAGES = 5


class Bench(NamedTuple):
    """A wrapper with its extension: the name for messages, what its programs have to know, and the
    program that simulates it."""

    name: str
    extension: Path
    listing: Listing
    simulation: Path


class Case(NamedTuple):
    """A program and the waits of its memory: a name for messages, the words, and the waits."""

    name: str
    words: list
    waits: list


class Difference(NamedTuple):
    """The first row that differs, with its line in the trace and in the simulation."""

    row: str
    wanted: str
    found: str


# Running the program and the simulator


def answer_of(options, words, what):
    answer = run_program(options.ixt, words)
    if answer.status:
        raise BadInput(f"{what}: the program refused: {shown(refusal_of(answer))}")
    return answer.text


def text_of(path):
    return "\n".join(lines_of(path)) + "\n"


def planted(text, plant, path):
    """A text with the mistake of a plant, whose place stands in it once."""
    if text.count(plant.old) != 1:
        raise BadInput(f"{path}: the place of the plant {plant.name} does not stand there once")
    return text.replace(plant.old, plant.new)


def compiled(options, modules, wrapper, room, plant=None):
    """The simulation of the core with a wrapper, and with a mistake if a plant is given."""
    room.mkdir(parents=True, exist_ok=True)
    sources = [FOLDER / name for name in CORE] + [wrapper]
    names = []
    for source in sources:
        text = text_of(source)
        if plant and source.name == plant.file:
            text = planted(text, plant, source)
        (room / source.name).write_text(text, encoding="utf-8")
        names.append(source.name)
    (room / "modules.v").write_text(modules, encoding="utf-8")
    return compile_verilog(options, "bench", [*names, "modules.v"], room)


def simulated(options, bench, case, room):
    """What the simulation prints of a case."""
    room.mkdir(parents=True, exist_ok=True)
    words = "".join(f"{word:08x}\n" for word in case.words)
    (room / "image.mem").write_text(words, encoding="utf-8")
    (room / "waits.mem").write_text("".join(f"{it:02x}\n" for it in case.waits), encoding="utf-8")
    plus = ["image=image.mem", f"words={len(case.words)}", "waits=waits.mem"]
    plus += [f"count={len(case.waits)}", f"rows={options.rows}"]
    plus.append(f"customs={len(bench.listing.widths)}")
    return simulate(options, bench.simulation, plus, room)


def traced(options, bench, case, room):
    """The trace of a case by the program."""
    room.mkdir(parents=True, exist_ok=True)
    image, waits = room / "image.hex", room / "run.waits"
    image.write_text("".join(f"{word:08x}\n" for word in case.words), encoding="utf-8")
    waits.write_text(" ".join(map(str, case.waits)) + "\n", encoding="utf-8")
    words = ["run", bench.extension, options.sheet, image, waits, options.rows]
    text = answer_of(options, words, case.name)
    stages = len(CELL.findall(text.partition("\n")[0]))
    if text[:1].isdigit() and stages != STAGES:
        raise BadInput(
            f"{options.sheet}: this is a core of {stages} stages, and examples/rtl has {STAGES}"
        )
    return text


# Comparing


def wanted_line(line, found):
    """A line of a trace, without the reasons that the line of the simulation does not have."""
    parts = found.split(" ")
    words = [
        STAYS.sub("/held", word) if at < len(parts) and parts[at].endswith("/held") else word
        for at, word in enumerate(line.split(" "))
    ]
    return " ".join(words)


def wanted_lines(trace, found):
    """The lines of a trace, without the reasons that those of the simulation do not have."""
    lines = trace.splitlines()
    parts = found[: len(lines)] + [""] * (len(lines) - len(found))
    return [wanted_line(*it) for it in zip(lines, parts)]


def found_lines(text, widths):
    """The lines of a simulation in the form of a trace: custom registers with the digits of their
    widths, the stop Fetch at its row, and what is owed in the order of retirement."""

    def cut(form):
        number = int(form[1])
        digits = -(-widths[number] // 4) if number < len(widths) else 0
        return f"c{form[1]}{form[2]}{form[3][-digits:]}"

    lines, last_row, in_state = [], 0, False
    for line in text.splitlines():
        in_state = in_state or line == "state"
        if line == "stop Fetch":
            lines[last_row] += " stop Fetch"
            continue
        if not in_state and line[:1].isdigit():
            last_row = len(lines)
        lines.append(CUSTOM.sub(cut, line) if line[:1] in "=+c" else line)
    owed = sorted((it for it in lines if it.startswith("o ")), key=lambda it: int(it.split()[1]))
    for at, line in enumerate(lines):
        if line.startswith("o "):
            lines[at] = owed.pop(0)
    return lines


def difference_of(wanted, found):
    """The first difference of two lists of lines, or None."""
    if wanted == found:
        return None
    count = min(len(wanted), len(found))
    at = next((k for k in range(count) if wanted[k] != found[k]), count)
    row = "0"
    for line in wanted[: at + 1]:
        form = ROW.match(line)
        row = form[1] if form else "the state" if line == "state" else row
    lines = [part[at] if at < len(part) else "(nothing more)" for part in (wanted, found)]
    return Difference(row, *lines)


def told(bench, case, difference):
    where = difference.row if difference.row == "the state" else f"row {difference.row}"
    return (
        f"{bench.name}, {case.name}: {where} differs\n"
        f"  ixt run:  {difference.wanted}\n  Verilog:  {difference.found}"
    )


class Sums:
    """What the runs of a wrapper went through: rows, retirements, reasons to stay, and marks."""

    def __init__(self):
        self.runs = 0
        self.rows = 0
        self.seen = Counter()

    def take(self, trace):
        self.runs += 1
        for line in trace.splitlines():
            if line == "state":
                return
            if line[:1].isdigit():
                self.rows += 1
                self.seen.update(form.partition("(")[0] for form in STAYS.findall(line))
                marks = Counter(word[0] for word in line.split(" ")[6:])
                self.seen["retirements"] += marks["r"]
                self.seen["late writes"] += marks["w"]
                self.seen["flushed"] += marks["f"]

    def text(self):
        parts = [f"{count} {name}" for name, count in sorted(self.seen.items()) if count]
        return f"{self.runs} runs, {self.rows} rows, no difference\n  {', '.join(parts)}"


def compare_case(options, bench, case, room):
    """The trace of a case and the first difference of the simulation from it."""
    trace = traced(options, bench, case, room)
    found = found_lines(simulated(options, bench, case, room), bench.listing.widths)
    return trace, difference_of(wanted_lines(trace, found), found)


# Cases


def words_of(options, extension, path, room):
    """The words of an image, or of an assembly source."""
    lines = read_source(path)
    if any(not line.word for line in lines.values()):
        text = answer_of(options, ["asm", extension, path], path)
        return [int(word, 16) for word in text.split()]
    return [int(line.word, 16) for line in lines.values()]


def read_waits(path):
    try:
        return [int(word) for line in lines_of(path) for word in line.split()]
    except ValueError as fault:
        raise BadInput(f"{path}: this is no list of waits") from fault


def cases_of(options, bench, programs, room):
    """All cases of a wrapper: its programs over memories that do and do not wait, and programs
    that look random. The same seed gives the same cases."""
    draw = random.Random(f"{options.seed} {bench.name}")
    waits = [("no waits", [])] + [(Path(it).name, read_waits(it)) for it in options.waits]
    cases = []
    for path in programs:
        words = words_of(options, bench.extension, path, room)
        for name, numbers in [*waits, ("random waits", random_waits(draw))]:
            cases.append(Case(f"{Path(path).name} with {name}", words, numbers))
    for number in range(options.random):
        words = random_program(draw, bench.listing, RANDOM_WORDS)
        cases.append(Case(f"random program {number}", words, random_waits(draw)))
    return cases


def programs_of(options, name):
    """The programs that examples/ has for a wrapper, and those of the command line."""
    own = [EXAMPLES / f"{name}.hex", FOLDER / f"{name}.s", EXAMPLES / "count-down.s"]
    return [it for it in own if it.exists()] + options.programs


def extension_of(name):
    path = FOLDER / f"{name}.core_desc"
    return path if path.exists() else EXAMPLES / f"{name}.core_desc"


# The whole


class Wrapper(NamedTuple):
    """A wrapper and its extension, with the modules, the report and the listing that the program
    gives."""

    name: str
    extension: Path
    file: Path
    modules: str
    report: Report
    listing: Listing


def wrapper_of(options, name, extension, file):
    text_of(file)
    what = extension.name
    report = answer_of(options, ["schedule", extension, options.sheet], what)
    modules = answer_of(options, ["build", extension, options.sheet], what)
    listing = answer_of(options, ["check", extension], what)
    parsed = parse_report(report.splitlines(), what)
    return Wrapper(name, extension, file, modules, parsed, listing_of(listing, parsed, what))


def bench_of(options, wrapper, room, plant=None):
    simulation = compiled(options, wrapper.modules, wrapper.file, room, plant)
    return Bench(wrapper.name, wrapper.extension, wrapper.listing, simulation)


def compare_wrapper(options, wrapper, programs, room, plant=None):
    """Compares all cases of a wrapper; True where none differs."""
    bench = bench_of(options, wrapper, room / wrapper.name, plant)
    cases = cases_of(options, bench, programs, room)
    sums, differences = Sums(), []
    with ThreadPoolExecutor(options.jobs) as workers:
        rooms = [room / wrapper.name / f"case-{at}" for at in range(len(cases))]
        answers = workers.map(lambda it: compare_case(options, bench, *it), zip(cases, rooms))
        for case, (trace, difference) in zip(cases, answers):
            sums.take(trace)
            if difference:
                differences.append(told(bench, case, difference))
    if differences:
        print("\n".join(differences))
        print(f"{wrapper.name}: {len(differences)} of {len(cases)} runs differ")
    else:
        print(f"{wrapper.name}: {sums.text()}")
    return not differences


def see_plant(options, wrapper, programs, room, plant):
    """Whether a plant is seen: runs the cases until one differs."""
    bench = bench_of(options, wrapper, room / plant.name, plant)
    for at, case in enumerate(cases_of(options, bench, programs, room)):
        _, difference = compare_case(options, bench, case, room / plant.name / f"case-{at}")
        if difference:
            where = difference.row if difference.row == "the state" else f"row {difference.row}"
            return f"seen: {plant.name} ({plant.says}): {where} of {case.name}"
    return None


def see_plants(options, wrappers, room):
    """Tells of each plant of the wrappers whether it is seen; True where all are."""
    plants = [it for it in PLANTS if it.wrapper in wrappers]

    def see(plant):
        wrapper = wrappers[plant.wrapper]
        return see_plant(options, wrapper, programs_of(options, plant.wrapper), room, plant)

    with ThreadPoolExecutor(options.jobs) as workers:
        lines = list(workers.map(see, plants))
    for plant, line in zip(plants, lines):
        print(line or f"not seen: {plant.name} ({plant.says})")
    print(f"{sum(map(bool, lines))} of {len(plants)} plants are seen")
    return all(lines)


def parse_options():
    parser = argparse.ArgumentParser(
        description="Simulates the core of examples/rtl with the modules of extensions in Icarus "
        "Verilog, and compares each cycle with `ixt run`.",
        epilog="Exit status: 0 no cycle differs, or each plant is seen; 1 an input is refused or "
        f"a tool is missing; 2 a wrong command line; {DIFFERS} a cycle differs, or a plant is not "
        "seen.",
    )
    parser.add_argument(
        "names", nargs="*", metavar="NAME", help=f"which wrappers (else all): {', '.join(NAMES)}"
    )
    parser.add_argument("--extension", metavar="FILE", type=Path, help="an extension of your own")
    parser.add_argument("--wrapper", metavar="FILE", type=Path, help="and its wrapper in Verilog")
    parser.add_argument(
        "--sheet", metavar="FILE", default=SHEET, help="the datasheet (else examples/five.toml)"
    )
    parser.add_argument(
        "--programs", metavar="FILE", nargs="+", default=[], help="more images, or sources (.s)"
    )
    parser.add_argument(
        "--waits",
        metavar="FILE",
        nargs="+",
        default=[SOME_WAITS],
        help="files of waits (else examples/some.waits)",
    )
    parser.add_argument(
        "--random",
        metavar="N",
        type=natural,
        default=20,
        help="how many programs that look random (else 20)",
    )
    parser.add_argument("--seed", metavar="N", type=natural, default=0, help="of what looks random")
    parser.add_argument(
        "--rows", metavar="N", type=natural, default=400, help="the most cycles (else 400)"
    )
    planting = parser.add_mutually_exclusive_group()
    planting.add_argument("--plants", action="store_true", help="see all plants, one by one")
    planting.add_argument("--plant", metavar="NAME", help="compare with this plant")
    planting.add_argument("--list-plants", action="store_true", help="list the plants")
    parser.add_argument(
        "--jobs", metavar="N", type=positive, default=os.cpu_count(), help="runs at a time"
    )
    parser.add_argument("--keep", metavar="FOLDER", type=Path, help="where to leave all files")
    add_icarus_options(parser)
    add_program_option(parser)
    options = parser.parse_args()
    check_options(parser, options)
    return options


def check_options(parser, options):
    for name in options.names:
        if name not in NAMES:
            parser.error(f"{name} is none of the wrappers: {', '.join(NAMES)}")
    if (options.extension is None) != (options.wrapper is None):
        parser.error("--extension and --wrapper go together")
    if options.extension and (options.names or options.plants or options.plant):
        parser.error("an extension of your own has no name and no plants")
    if options.rows > MOST_ROWS:
        parser.error(f"--rows goes up to {MOST_ROWS}")
    if options.plant and options.plant not in [it.name for it in PLANTS]:
        parser.error(f"{options.plant} is no plant: --list-plants names them")


def run_all(options, room):
    if options.extension:
        name = options.wrapper.stem
        wrapper = wrapper_of(options, name, options.extension, options.wrapper)
        return compare_wrapper(options, wrapper, options.programs, room)
    plant = next((it for it in PLANTS if it.name == options.plant), None)
    names = [plant.wrapper] if plant else options.names or NAMES
    wrappers = {it: wrapper_of(options, it, extension_of(it), FOLDER / f"{it}.v") for it in names}
    if options.plants:
        return see_plants(options, wrappers, room)
    results = [
        compare_wrapper(options, it, programs_of(options, it.name), room, plant)
        for it in wrappers.values()
    ]
    return all(results)


def main():
    options = parse_options()
    if options.list_plants:
        for it in PLANTS:
            print(f"{it.name}: {it.says}")
        return 0
    find_icarus(options)
    if options.keep:
        options.keep.mkdir(parents=True, exist_ok=True)
        return 0 if run_all(options, options.keep.resolve()) else DIFFERS
    with tempfile.TemporaryDirectory() as place:
        return 0 if run_all(options, Path(place)) else DIFFERS


if __name__ == "__main__":
    finish(main)
