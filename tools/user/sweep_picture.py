#!/usr/bin/env python3
"""A sweep of `ixt sweep` as an SVG picture: what schedules cost in registers, over the period.

Each behaviour has a row. Its columns are the least period with which it has a schedule, twice and
four times as much; the bar in a column is as high as what the schedule with this period keeps over
clock edges. Left of the columns stands the greatest period with which there is no schedule.
"""
import argparse
from typing import NamedTuple

from ixt_svg import ALARM, HAIR, INK, PALE, SHADES, STANDING, Picture, fitted
from ixt_texts import (
    HEADS,
    BadInput,
    add_output_option,
    finish,
    lines_of,
    parse_report,
    shown,
    write_output,
)

MOST_ROWS = 12
LEFT, TOP, ROW, BAR = 20, 54, 78, 36
NAMES, NONE, COLUMN = 150, 130, 130
FILLS = {"InPipeline": SHADES[1], "Tight": SHADES[3], "Decoupled": SHADES[2], "Always": SHADES[0]}


class Entry(NamedTuple):
    """A schedule with a period: its mode, and what it keeps over clock edges."""

    period: int
    mode: str
    kept: int


class Sweep(NamedTuple):
    """What a sweep says of a behaviour: `least` is None where it has no schedule, `below` the
    period with which a cycle shows that there is none, or None."""

    name: str
    least: int
    entries: list
    below: int
    weighted: bool


def kept_by(behaviour):
    """What a schedule keeps: for each result the clock edges from where it is there to its last
    use, by its width where the report has widths."""
    last = [it.time for it in behaviour.operations]
    for first, second in behaviour.edges:
        last[first] = max(last[first], behaviour.operations[second].time)
    return sum(
        max(0, end - it.time - it.latency) * it.weight
        for it, end in zip(behaviour.operations, last)
    )


def head_of(line, place, name):
    """The name and the least period of a line `sweep`."""
    words = line.split(" ")
    if len(words) == 3 and words[0] == "sweep" and words[2] == "none":
        return words[1], None
    digits = words[3] if len(words) == 4 and words[0] == "sweep" and words[2] == "least" else ""
    if not (digits.isascii() and digits.isdigit() and len(digits) <= 7):
        raise BadInput(f"{name}, line {place}: {shown(line)} is no line `sweep NAME least PERIOD`")
    return words[1], int(digits)


def reports_in(lines):
    """The lines of each report."""
    found = []
    for line in lines:
        if line in HEADS or not found:
            found.append([])
        found[-1].append(line)
    return found


def sweep_of(head, lines, place, name):
    title, least = head_of(head, place, name)
    entries, below, weighted = [], None, False
    for part in reports_in(lines):
        report = parse_report(part, f"{name}, behind line {place}")
        if [it.name for it in report.behaviours] != [title]:
            raise BadInput(f"{name}: a report behind line {place} is not of {title} alone")
        behaviour = report.behaviours[0]
        weighted = behaviour.weighted
        if behaviour.mode == "none":
            below = report.period
        else:
            entries.append(Entry(report.period, behaviour.mode, kept_by(behaviour)))
    if bool(entries) != (least is not None):
        raise BadInput(f"{name}: the reports behind line {place} do not fit it")
    return Sweep(title, least, entries, below, weighted)


def parse_sweeps(lines, name):
    """What a sweep says of each behaviour."""
    lines = list(lines)
    if lines and lines[0].startswith("refused "):
        raise BadInput(f"{name}: there is no sweep, the program refused: {shown(lines[0])}")
    if lines and not lines[0].startswith("sweep "):
        raise BadInput(f"{name}, line 1: a sweep starts with `sweep NAME ..`")
    heads = [at for at, line in enumerate(lines) if line.startswith("sweep ")]
    return [
        sweep_of(lines[at], lines[at + 1 : end], at + 1, name)
        for at, end in zip(heads, heads[1:] + [len(lines)])
    ]


def draw_bar(picture, left, base, entry, most, unit):
    """A column: the bar, what is kept above it, the period and the mode below it."""
    shade = FILLS[entry.mode]
    height = max(1, BAR * entry.kept / most)
    tip = f"period {entry.period}: {entry.kept} {unit}, {entry.mode}"
    picture.rectangle(
        left, base - height, 44, height, tip, fill=shade.fill, stroke=shade.edge, stroke_width=0.8
    )
    picture.text(left, base - height - 4, str(entry.kept), 9)
    picture.text(left, base + 11, str(entry.period), 9, weight="bold")
    picture.text(left, base + 21, entry.mode, 8, fill=PALE)


def draw_row(picture, top, sweep, most, unit):
    base = top + BAR + 18
    picture.text(LEFT, base, fitted(sweep.name, 11, NAMES - 10), 11, weight="bold")
    least = "no period fits" if sweep.least is None else f"least {sweep.least}"
    picture.text(LEFT, base + 12, least, 9, fill=PALE)
    left = LEFT + NAMES
    if sweep.below is not None:
        picture.line(left, base, left + NONE - 20, base, stroke=ALARM, stroke_width=2.5)
        picture.text(left, base - 6, "no schedule", 9, fill=ALARM)
        picture.text(left, base + 11, f"up to {sweep.below}", 9, fill=ALARM)
    first = left + NONE
    picture.line(first - 8, base, first + 3 * COLUMN - 30, base, stroke=INK)
    for at, entry in enumerate(sweep.entries):
        draw_bar(picture, first + at * COLUMN, base, entry, most, unit)


def page(sweeps):
    """The picture of these behaviours."""
    unit = "bits of registers" if sweeps[0].weighted else "registers"
    most = max([entry.kept for it in sweeps for entry in it.entries], default=0) or 1
    picture = Picture(f"{unit} over the period")
    picture.text(LEFT, 24, f"What schedules keep in {unit}, over the period", 13, weight="bold")
    words = "with the least period that has a schedule, and with twice and four times as much"
    picture.text(LEFT, 40, words, 9, fill=PALE)
    for at, sweep in enumerate(sweeps):
        top = TOP + at * ROW
        draw_row(picture, top, sweep, most, unit)
        picture.line(LEFT, top + ROW - 1, STANDING[0] - LEFT, top + ROW - 1, stroke=HAIR)
    return picture.whole(STANDING[0], TOP + ROW * len(sweeps) + 10)


def chosen(sweeps, name):
    """The behaviours that are drawn: the one with the name, else all."""
    if not sweeps:
        raise BadInput("the sweep has no behaviour")
    found = [it for it in sweeps if name in (None, it.name)]
    if not found:
        raise BadInput(
            f"no behaviour is named {name}: there are {', '.join(it.name for it in sweeps)}"
        )
    if len(found) > MOST_ROWS:
        raise BadInput(
            f"the sweep has {len(found)} behaviours; a picture has room for {MOST_ROWS}: "
            "choose one by --behaviour NAME"
        )
    return found


def main():
    parser = argparse.ArgumentParser(
        description="Draws a sweep: what schedules keep in registers, over the period.",
        epilog="Exit status: 0 done, 1 an input is refused, 2 a wrong command line. "
        "Example: ./ixt sweep EXT SHEET | tools/user/sweep_picture.py -o sweep.svg",
    )
    parser.add_argument("sweep", nargs="?", default="-", help="the sweep (else standard input)")
    parser.add_argument(
        "--behaviour", metavar="NAME", help="the behaviour that is drawn (else all of the sweep)"
    )
    add_output_option(parser)
    options = parser.parse_args()
    name = "standard input" if options.sweep == "-" else options.sweep
    sweeps = parse_sweeps(lines_of(options.sweep), name)
    write_output(options.output, page(chosen(sweeps, options.behaviour)))


if __name__ == "__main__":
    finish(main)
