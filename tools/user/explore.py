#!/usr/bin/env python3
"""Runs extensions on datasheets with programs, many at a time under GNU parallel, and gives a table
and a plot.

Each run is a job: the program is assembled where it is a source, the modules are built, and the
program runs in the pipeline. The folder of the output keeps the list of jobs, GNU parallel's log
and each job's line, so that --resume goes on where a run was cut off. Over several machines
(--sshlogin) this repository and the files have the same paths on each of them.
"""
import argparse
import itertools
import re
import shlex
import shutil
import subprocess
import sys
import tempfile
from pathlib import Path
from typing import NamedTuple

from ixt_svg import HAIR, INK, LYING, PALE, Legend, Picture, fitted
from ixt_texts import (
    BadInput,
    Trace,
    add_program_option,
    finish,
    natural,
    refusal_of,
    run_program,
    write_output,
)
from trace_summary import account

COLUMNS = [
    "extension",
    "sheet",
    "program",
    "status",
    "stop",
    "cycles",
    "retired",
    "cycles_per_instruction",
    "flushed",
    "register_bits",
    "refusal",
]
MOST_CYCLES = 200_000
ENDS = [
    "Ebreak",
    "Ecall",
    "Fetch",
]  # (the other stops are faults of a program, so their cycles say nothing)
MOST_PANELS = 6
MOST_SERIES = 24  # (each of FORMS in each of INKS)
REGISTER = re.compile(r"  reg \[(\d+):0\] \w+;")


# One run


def one_run(options):
    """The line of a run in the table. A refusal of the program is a result too, and stands in the
    last columns."""
    extension, sheet, program = options.one
    fields = dict.fromkeys(COLUMNS, "")
    fields |= {"extension": extension, "sheet": sheet, "program": program}
    with tempfile.TemporaryDirectory() as room:
        answer, image = image_of(options.ixt, extension, program, Path(room))
        if not answer or not answer.status:
            answer = run_program(options.ixt, ["build", extension, sheet])
            if not answer.status:
                fields["register_bits"] = sum(int(it) + 1 for it in REGISTER.findall(answer.text))
                answer = run_image(options, fields, image, Path(room))
    fields["status"] = answer.status
    fields["refusal"] = shortened(refusal_of(answer))
    return "\t".join(str(fields[name]) for name in COLUMNS) + "\n"


def image_of(ixt, extension, program, room):
    """The answer of the assembler, or None where the program is an image already, and the image."""
    if not program.endswith(".s"):
        return None, program
    answer = run_program(ixt, ["asm", extension, program])
    image = room / "program.hex"
    image.write_text(answer.text, encoding="utf-8")
    return answer, image


def run_image(options, fields, image, room):
    """Runs the image, and puts what its trace comes to into the fields."""
    waits = options.waits
    if waits is None:
        waits = room / "none.waits"
        waits.write_text("", encoding="utf-8")
    answer = run_program(
        options.ixt, ["run", fields["extension"], fields["sheet"], image, waits, options.cycles]
    )
    if answer.status:
        return answer
    trace = room / "run.trace"
    trace.write_text(answer.text, encoding="utf-8")
    sums = account(Trace(str(trace)))
    fields |= {
        "stop": sums.stop or "none",
        "cycles": sums.cycles,
        "retired": sums.retired,
        "flushed": sums.flushed,
    }
    if sums.retired:
        fields["cycles_per_instruction"] = f"{sums.cycles / sums.retired:.2f}"
    return answer


def shortened(refusal):
    """A refusal without the path of a temporary file, and without characters that part fields."""
    return " ".join(refusal.split()[:4]) if refusal else ""


# All runs


def check_files(options):
    """The files are there and their names fit into a table; what is in them is judged run by
    run."""
    for path in (
        options.extensions
        + options.sheets
        + options.programs
        + ([options.waits] if options.waits else [])
    ):
        if not Path(path).is_file():
            raise BadInput(f"{path}: no such file")
        if any(it in path for it in "\t\n\r"):
            raise BadInput(f"{path!r}: a name with a tab or a line feed cannot stand in a table")


def check_parallel(program):
    """The path of GNU parallel."""
    found = shutil.which(program)
    if found is None:
        raise BadInput(
            f"{program} was not found: install GNU parallel "
            "(https://www.gnu.org/software/parallel), or name it by --parallel PATH"
        )
    said = subprocess.run(
        [found, "--version"],
        stdout=subprocess.PIPE,
        stderr=subprocess.DEVNULL,
        stdin=subprocess.DEVNULL,
        check=False,
    )
    if not said.stdout.startswith(b"GNU parallel"):
        raise BadInput(
            f"{found} is not GNU parallel, which is needed (there is another program of this name)"
        )
    return found


def jobs_text(options):
    """The jobs, a line each; paths are whole, so that they hold on each machine."""
    whole = [
        [str(Path(it).resolve()) for it in files]
        for files in (options.extensions, options.sheets, options.programs)
    ]
    return "".join("\t".join(names) + "\n" for names in itertools.product(*whole))


def prepare(folder, jobs, resume):
    """The folder with its list of jobs; one that has another list, or one already without --resume,
    is refused."""
    listed = folder / "jobs.tsv"
    if listed.exists():
        if not resume:
            raise BadInput(
                f"{folder} has runs already: go on with them by --resume, or take another folder"
            )
        if listed.read_text(encoding="utf-8") != jobs:
            raise BadInput(f"{folder} has runs of other files: take another folder")
    try:
        (folder / "lines").mkdir(parents=True, exist_ok=True)
        listed.write_text(jobs, encoding="utf-8")
    except OSError as fault:
        raise BadInput(f"{folder}: {fault.strerror}") from fault


def run_all(options, parallel, folder):
    """Runs the jobs; each one's line is kept in a file of its own, with its number."""
    worker = [sys.executable if not options.sshlogin else "python3", str(Path(__file__).resolve())]
    worker += ["--ixt", str(Path(options.ixt).resolve()), "--cycles", str(options.cycles)]
    if options.waits:
        worker += ["--waits", str(Path(options.waits).resolve())]
    command = " ".join(shlex.quote(it) for it in worker) + " --one {1} {2} {3}"
    words = [
        parallel,
        "--colsep",
        "\t",
        "--arg-file",
        str(folder / "jobs.tsv"),
        "--joblog",
        str(folder / "joblog"),
    ]
    words += ["--results", str(folder / "lines" / "{#}")]
    # (a job that gave no line is run again)
    words += ["--resume-failed"] if options.resume else []
    words += ["--jobs", options.jobs] if options.jobs else []
    for login in options.sshlogin or []:
        words += ["--sshlogin", login]
    done = subprocess.run(
        [*words, command], stdin=subprocess.DEVNULL, stdout=subprocess.DEVNULL, check=False
    )
    return done.returncode


def gather(folder, options):
    """The rows of the jobs in their order, with the names of files as they were given, and the
    numbers of the jobs that gave none."""
    rows, missing = [], []
    for number, names in enumerate(
        itertools.product(options.extensions, options.sheets, options.programs), 1
    ):
        place = folder / "lines" / str(number)
        fields = (
            place.read_text(encoding="utf-8").rstrip("\n").split("\t") if place.exists() else []
        )
        if len(fields) == len(COLUMNS):
            rows.append(dict(zip(COLUMNS, [*names, *fields[3:]])))
        else:
            missing.append(number)
    return rows, missing


def fault_of(folder, number):
    """What a job without a line said."""
    place = folder / "lines" / f"{number}.err"
    said = place.read_text(encoding="utf-8").strip().splitlines() if place.exists() else []
    return said[-1] if said else "it was not run"


# The plot


class Point(NamedTuple):
    """A run that came to its end: which series it belongs to, the bits of its registers, and its
    cycles."""

    series: tuple
    registers: int
    cycles: int


# Signs differ in form, and their inks in grey.
INKS = ["#1f1333", "#2a7fb0", "#8fc98a", "#e0b040"]
FORMS = ["circle", "square", "diamond", "triangle", "cross", "ring"]


def panels_of(rows):
    """The points of each program."""
    names = {column: short_names([row[column] for row in rows]) for column in COLUMNS[:3]}
    panels = {}
    for row in rows:
        if row["stop"] in ENDS:
            extension, sheet, program = (names[column][row[column]] for column in COLUMNS[:3])
            panels.setdefault(program, []).append(
                Point((extension, sheet), int(row["register_bits"]), int(row["cycles"]))
            )
    return panels


def plot(rows):
    """A panel for each program: cycles up, bits of registers across, a sign for each extension and
    datasheet."""
    panels = panels_of(rows)
    if not panels:
        return None
    shown = dict(list(panels.items())[:MOST_PANELS])
    every = list(dict.fromkeys(it.series for points in shown.values() for it in points))
    series = signs_of(every[:MOST_SERIES])
    picture = Picture("Cycles against registers")
    across = min(3, len(shown))
    wide, high = (LYING[0] - 16) / 3, 250
    right = max(wide * across, 560)
    picture.text(8, 18, "Cycles against bits of registers between times", 12, weight="bold")
    for at, (program, points) in enumerate(shown.items()):
        draw_panel(
            picture,
            (8 + wide * (at % across), 34 + high * (at // across), wide - 16, high - 16),
            program,
            points,
            series,
        )
    bottom = 34 + high * ((len(shown) + across - 1) // across)
    legend = Legend(picture, 8, bottom + 4, right)
    for one, sign in series.items():
        legend.add(
            12,
            f"{one[0]} on {one[1]}",
            lambda x, y, sign=sign: draw_sign(picture, x + 6, y - 3, sign, ""),
        )
    left_out = [f"{len(panels) - len(shown)} more programs"] if len(panels) > len(shown) else []
    left_out += [f"{len(every) - len(series)} more pairs"] if len(every) > len(series) else []
    if left_out:
        legend.add(0, f"not shown: {', '.join(left_out)} (the table has them)", lambda x, y: None)
    return picture.whole(right + 16, legend.bottom())


def signs_of(every):
    """The form and the ink of each pair: a form for an extension and an ink for a datasheet, where
    there are enough."""
    extensions, sheets = (list(dict.fromkeys(one[at] for one in every)) for at in (0, 1))
    if len(extensions) <= len(FORMS) and len(sheets) <= len(INKS):
        return {one: (FORMS[extensions.index(one[0])], INKS[sheets.index(one[1])]) for one in every}
    return {one: (FORMS[at // len(INKS)], INKS[at % len(INKS)]) for at, one in enumerate(every)}


def draw_panel(picture, place, program, points, series):
    left, top, width, height = place
    grid = (left + 52, top + 36, width - 60, height - 76)
    picture.text(left, top + 8, fitted(program, 10, width), 10, weight="bold")
    across = ticks(max(it.registers for it in points))
    up = ticks(max(it.cycles for it in points))
    draw_axes(picture, grid, across, up)
    # (equal points lie beside each other)
    taken = {}
    for it in points:
        if it.series in series:
            at = taken.setdefault((it.registers, it.cycles), 0)
            taken[(it.registers, it.cycles)] += 1
            x = place_across(grid, it.registers, across) + 7 * at
            y = grid[1] + grid[3] * (1 - it.cycles / up[-1])
            tip = f"{it.series[0]} on {it.series[1]}: {it.cycles} cycles, {it.registers} bits"
            draw_sign(picture, min(x, grid[0] + grid[2]), y, series[it.series], tip)


def ticks(most):
    """Round numbers from 0 to the first one that is not below the most, at most six steps."""
    steps = (base * 10**power for power in range(8) for base in (1, 2, 5))
    step = next((it for it in steps if it * 5 >= most), 10**8)
    return list(range(0, max(most, 1) + step, step))


def place_across(grid, number, across):
    """Where a number is across; 0 keeps off the axis, so that its sign touches no number beside
    that."""
    return grid[0] + 9 + (grid[2] - 9) * number / across[-1]


def draw_axes(picture, grid, across, up):
    left, top, width, height = grid
    for at in up:
        y = top + height * (1 - at / up[-1])
        picture.line(left, y, left + width, y, stroke=HAIR)
        picture.text(left - 5, y + 3, str(at), 8, anchor="end")
    for at in across:
        x = place_across(grid, at, across)
        picture.line(x, top, x, top + height, stroke=HAIR)
        picture.text(x, top + height + 12, str(at), 8, anchor="middle")
    picture.line(left, top, left, top + height, stroke=INK)
    picture.line(left, top + height, left + width, top + height, stroke=INK)
    picture.text(left - 5, top - 10, "cycles", 8, anchor="end", fill=PALE)
    picture.text(left + width, top + height + 25, "bits of registers", 8, anchor="end", fill=PALE)


def draw_sign(picture, x, y, sign, tip):
    """The sign of a series."""
    form, ink = sign
    style = {"fill": ink, "stroke": INK, "stroke_width": 0.6}
    if form == "circle":
        picture.circle(x, y, 4, tip, **style)
    elif form == "ring":
        picture.circle(x, y, 3.5, tip, fill="#ffffff", stroke=ink, stroke_width=2)
    elif form == "square":
        picture.rectangle(x - 3.5, y - 3.5, 7, 7, tip, **style)
    elif form == "diamond":
        picture.polygon([(x, y - 5), (x + 5, y), (x, y + 5), (x - 5, y)], tip, **style)
    elif form == "triangle":
        picture.polygon([(x, y - 5), (x + 4.5, y + 3.5), (x - 4.5, y + 3.5)], tip, **style)
    else:
        arm = [
            (-1.5, -5),
            (1.5, -5),
            (1.5, -1.5),
            (5, -1.5),
            (5, 1.5),
            (1.5, 1.5),
            (1.5, 5),
            (-1.5, 5),
            (-1.5, 1.5),
            (-5, 1.5),
            (-5, -1.5),
            (-1.5, -1.5),
        ]
        picture.polygon([(x + dx, y + dy) for dx, dy in arm], tip, **style)


def short_names(paths):
    """For each path the name of its file without its ending, or the path itself where another one
    has that name too."""
    stems = [Path(it).stem for it in set(paths)]
    return {it: Path(it).stem if stems.count(Path(it).stem) == 1 else it for it in paths}


def add_run_options(parser):
    """What is run."""
    parser.add_argument("--extensions", nargs="+", metavar="EXT", help="extensions")
    parser.add_argument("--sheets", nargs="+", metavar="SHEET", help="datasheets")
    parser.add_argument(
        "--programs", nargs="+", metavar="FILE", help="programs: images, or sources that end in .s"
    )
    parser.add_argument(
        "--waits", metavar="FILE", help="the waits of the memory (else it never waits)"
    )
    parser.add_argument(
        "--cycles",
        metavar="N",
        type=natural,
        default=MOST_CYCLES,
        help=f"the most cycles of a run (else {MOST_CYCLES})",
    )
    parser.add_argument(
        "--one",
        nargs=3,
        metavar=("EXT", "SHEET", "FILE"),
        help="print the line of one run, as each job does",
    )
    add_program_option(parser)


def add_parallel_options(parser):
    """How it is run."""
    parser.add_argument(
        "--folder", metavar="FOLDER", help="where the table, the plot and the runs are kept"
    )
    parser.add_argument("--resume", action="store_true", help="go on with the runs of the folder")
    parser.add_argument(
        "--jobs",
        metavar="N",
        help="how many runs at a time, as GNU parallel's --jobs (else one a processor)",
    )
    parser.add_argument(
        "--sshlogin",
        action="append",
        metavar="LOGIN",
        help="a machine, as GNU parallel's --sshlogin; it may stand more than once",
    )
    parser.add_argument(
        "--parallel",
        metavar="PATH",
        default="parallel",
        help="GNU parallel (else parallel in the search path)",
    )


def parse_options():
    parser = argparse.ArgumentParser(
        description="Runs extensions on datasheets with programs under GNU parallel, and gives "
        "table.tsv and plot.svg.",
        epilog="Exit status: 0 done, 1 an input is refused, GNU parallel is missing, or a run gave "
        "no line, 2 a wrong command line. A run that the program refuses is a line of the table, "
        "with its refusal.",
    )
    add_run_options(parser)
    add_parallel_options(parser)
    options = parser.parse_args()
    if options.cycles > MOST_CYCLES:
        parser.error(f"a run has at most {MOST_CYCLES} cycles")
    if not options.one:
        missing = [
            name
            for name in ("extensions", "sheets", "programs", "folder")
            if not getattr(options, name)
        ]
        if missing:
            parser.error("needed: " + ", ".join(f"--{name}" for name in missing))
    return options


def main():
    options = parse_options()
    if options.one:
        write_output("-", one_run(options))
        return 0
    check_files(options)
    parallel = check_parallel(options.parallel)
    folder, jobs = Path(options.folder), jobs_text(options)
    # (the launcher proves and builds a program that is missing: once, and not in each job)
    run_program(options.ixt, ["check", options.extensions[0]])
    prepare(folder, jobs, options.resume)
    run_all(options, parallel, folder)
    rows, missing = gather(folder, options)
    lines = ["\t".join(COLUMNS)] + ["\t".join(row.values()) for row in rows]
    write_output(str(folder / "table.tsv"), "\n".join(lines) + "\n")
    drawn = plot(rows)
    if drawn is not None:
        write_output(str(folder / "plot.svg"), drawn)
    refused = sum(row["status"] != "0" for row in rows)
    print(
        f"{len(rows)} runs in {folder / 'table.tsv'}, {refused} of them refused"
        + ("" if drawn else "; none came to its end, so there is no plot")
    )
    if missing:
        raise BadInput(
            f"{len(missing)} runs gave no line; number {missing[0]}: "
            f"{fault_of(folder, missing[0])}. --resume runs them again"
        )
    return 0


if __name__ == "__main__":
    finish(main)
