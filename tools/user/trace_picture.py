#!/usr/bin/env python3
"""A trace that `ixt run` wrote as a picture: an SVG pipeline diagram, or a Kanata 0004 log for
pipeline viewers.

The diagram has a line for each instruction and a column for each cycle. A filled box says in which
stage the instruction is, an open one that it stays there and why. It shows as many cycles as fit on
a page.
"""
import argparse
import gc
from collections import Counter

from ixt_svg import ALARM, INK, LYING, PALE, SHADES, Legend, Picture, fitted, step_of, text_width
from ixt_texts import (
    COUNTED_HOLDS,
    HOLDS,
    STAGES,
    BadInput,
    Trace,
    add_output_option,
    check_source,
    finish,
    hold_parts,
    natural,
    positive,
    read_source,
    source_text,
    write_output,
)

MOST_ROWS = 40
ALL_ROWS = 10**9
FLUSHED = "×"
STOPPED = "■"
LATE = "+"


class Life:
    """What a window of rows shows of one instruction: its cells by row, its end, and what it waited
    for."""

    def __init__(self, cell):
        self.serial = cell.serial
        self.address = cell.address
        self.cells = {}
        self.holds = Counter()
        self.flushed = self.retired = self.late = self.stopped = None
        self.word = self.writes = ""


class Window:
    """The rows that are shown, from `first` on, and the lives of the instructions in them by
    serial."""

    def __init__(self, first):
        self.first = first
        self.count = 0
        self.all_rows = 0
        self.stages = 0
        self.stop = None
        self.lives = {}
        self.words = {}


def read_window(trace, first, most):
    window = Window(first)
    for row in trace:
        window.all_rows += 1
        take_words(window.words, row)
        window.stop = row.stop
        if first <= row.number < first + most:
            window.count += 1
            take_row(window.lives, row, len(row.cells))
    window.stages = trace.stages
    window.lives = dict(sorted(window.lives.items()))
    if window.count == 0:
        raise BadInput(f"the trace has {window.all_rows} rows, and none from row {first} on")
    return window


def take_words(words, row):
    """Adds what a row tells of the words at addresses: empty ones where no retirement was seen."""
    if row.cells[0] is not None:
        words.setdefault(row.cells[0].address, "")
    if row.retirement is not None:
        words[row.retirement.address] = row.retirement.word


def take_row(lives, row, stages):
    """Adds a row to the lives of its instructions."""
    for stage, cell in enumerate(row.cells):
        if cell is not None:
            life = lives.setdefault(cell.serial, Life(cell))
            life.cells[row.number] = (stage, cell)
            if cell.hold:
                life.holds[shown_hold(cell)] += 1
    for serial in row.flushed:
        lives[serial].flushed = row.number
    if row.retired is not None:
        life = lives[row.retired]
        life.retired, life.word, life.writes = (
            row.number,
            row.retirement.word,
            row.retirement.writes,
        )
    if row.late in lives:
        lives[row.late].late = row.number
    if row.stop is not None:
        stop_one(lives, row, stages)


def stop_one(lives, row, stages):
    """The instruction in EX stops the run, unless the pipeline is empty."""
    execute = [letter for letter, _ in STAGES[stages]].index("X")
    if row.cells[execute] is not None:
        lives[row.cells[execute].serial].stopped = row.number


def shown_hold(cell):
    """A hold without a number of rows that are left, so that equal ones are counted."""
    return cell.hold_name if cell.hold_name in ("Wait", "Tail") else cell.hold


# The diagram


class Layout:
    """Where the parts of the diagram are, in pixels."""

    def __init__(self, window, source):
        lives = window.lives.values()
        self.size = 10
        self.left = 8
        self.serials = text_width(str(max(window.lives, default=0)), self.size)
        names = [name_text(it, source) for it in lives]
        self.names = min(max((text_width(it, self.size) for it in names), default=0), 190)
        self.whys = min(max((text_width(why_text(it), 9) for it in lives), default=0), 200)
        self.grid = self.left + self.serials + 8 + self.names + 10
        room = LYING[0] - self.grid - self.whys - 26
        self.cell = min(24, room / window.count)
        self.top = 50
        self.line = 16 if len(window.lives) <= 36 else 13
        self.edge = self.grid + self.cell * window.count
        self.bottom = self.top + self.line * len(window.lives)

    def column(self, window, row):
        return self.grid + self.cell * (row - window.first)


def name_text(life, source):
    """The address and what is known of the instruction: its source, or its word once it retired."""
    return f"{life.address} {source_text(source, life.address) or life.word}".rstrip()


def why_text(life):
    return ", ".join(
        f"{hold} ×{count}" if count > 1 else hold for hold, count in life.holds.items()
    )


def diagram(window, source, name):
    layout = Layout(window, source)
    picture = Picture(f"Pipeline diagram of {name}")
    last = window.first + window.count - 1
    whole = "all" if window.count == window.all_rows else f"cycles {window.first} to {last} of"
    stop = f", stopped by {window.stop}" if window.stop and last == window.all_rows - 1 else ""
    head = f"{name}: {whole} {window.all_rows} cycles{stop}"
    picture.text(layout.left, 16, fitted(head, 12, LYING[0] - 16), 12, weight="bold")
    draw_grid(picture, layout, window)
    for at, life in enumerate(window.lives.values()):
        draw_life(picture, layout, window, life, layout.top + layout.line * at, source)
    width = min(max(layout.edge + layout.whys + 18, text_width(head, 12) + 16, 640), LYING[0])
    legend = draw_legend(picture, layout, window, width)
    return picture.whole(width, legend.bottom())


def draw_grid(picture, layout, window):
    """The numbers of the cycles and fine lines below them; where they are narrow, each fifth one
    has its number."""
    step = step_of(layout.cell, text_width(str(window.first + window.count), 9))
    picture.text(layout.left, layout.top - 6, "instruction", 9, fill=PALE)
    picture.text(layout.grid, layout.top - 18, "cycle", 9, fill=PALE)
    if any(it.holds for it in window.lives.values()):
        picture.text(layout.edge + 8, layout.top - 6, "waits for", 9, fill=PALE)
    for row in range(window.first, window.first + window.count):
        x = layout.column(window, row)
        picture.line(x, layout.top, x, layout.bottom)
        if row % step == 0:
            picture.text(x + layout.cell / 2, layout.top - 6, str(row), 9, anchor="middle")
    picture.line(layout.edge, layout.top, layout.edge, layout.bottom)


def draw_life(picture, layout, window, life, top, source):
    base = top + layout.line / 2 + 3.5
    picture.text(
        layout.left + layout.serials, base, str(life.serial), layout.size, anchor="end", fill=PALE
    )
    picture.text(
        layout.left + layout.serials + 8,
        base,
        fitted(name_text(life, source), layout.size, layout.names + 1),
        layout.size,
    )
    for row, (stage, cell) in life.cells.items():
        draw_cell(
            picture,
            layout,
            (layout.column(window, row), top, base),
            (stage, cell),
            end_sign(life, row),
            window.stages,
        )
    if life.late is not None and life.late not in life.cells:
        middle = layout.column(window, life.late) + layout.cell / 2
        picture.text(middle, base, LATE, 10, anchor="middle", weight="bold")
    picture.text(layout.edge + 8, base, fitted(why_text(life), 9, layout.whys + 1), 9)


def end_sign(life, row):
    """The sign of an instruction that ends in this row without a retirement, or None."""
    if life.flushed == row:
        return FLUSHED
    return STOPPED if life.stopped == row else None


def draw_cell(picture, layout, place, cell, sign, stages):
    """A box for a stage and a cycle: filled where the instruction goes on, open where it stays,
    with a sign where it ends."""
    x, top, base = place
    stage, it = cell
    shade = shade_of(stage, stages)
    letter, stage_name = STAGES[stages][stage]
    tip = f"{it.serial}@{it.address} {stage_name}{': ' + it.hold if it.hold else ''}"
    box = (x + 1, top + 1.5, layout.cell - 2, layout.line - 3)
    words, ink, size = letter, shade.ink, min(10, layout.cell * 0.75)
    if sign == FLUSHED:
        picture.rectangle(*box, tip, fill="#ffffff", stroke=ALARM, stroke_dasharray="2 2")
        words, ink = FLUSHED, ALARM
    elif sign == STOPPED:
        picture.rectangle(*box, tip, fill="#ffffff", stroke=INK)
        words, ink = STOPPED, INK
    elif it.hold:
        inner = (box[0] + 0.7, box[1] + 0.7, box[2] - 1.4, box[3] - 1.4)
        picture.rectangle(*inner, tip, fill="#ffffff", stroke=shade.edge, stroke_width=1.4)
        words, ink, size = HOLDS[it.hold_name][0], INK, min(9, (layout.cell - 4) / 1.25)
    else:
        picture.rectangle(*box, tip, fill=shade.fill, stroke=shade.edge, stroke_width=0.5)
    picture.text(x + layout.cell / 2, base, words, size, anchor="middle", fill=ink)


def shade_of(stage, stages):
    """The shade of a stage: from light at the first to dark at the last."""
    places = {3: [0, 2, 4], 4: [0, 1, 2, 4], 5: [0, 1, 2, 3, 4]}
    return SHADES[places[stages][stage]]


def draw_legend(picture, layout, window, width):
    """What the boxes that occur mean."""
    legend = Legend(picture, layout.left, layout.bottom + 22, width - 16)
    for stage, (letter, name) in enumerate(STAGES[window.stages]):
        shade = shade_of(stage, window.stages)
        last = ", and retires" if stage == window.stages - 1 else ""
        legend.add(
            16,
            name + last,
            box_sign(
                picture, letter, shade.ink, fill=shade.fill, stroke=shade.edge, stroke_width=0.5
            ),
        )
    for name in sorted(
        {
            cell.hold_name
            for it in window.lives.values()
            for _, cell in it.cells.values()
            if cell.hold
        }
    ):
        code, text = HOLDS[name]
        legend.add(
            16,
            f"{name}: waits for {text}",
            box_sign(picture, code, INK, fill="#ffffff", stroke=PALE, stroke_width=1.4),
        )
    if any(it.flushed is not None for it in window.lives.values()):
        legend.add(
            16,
            "flushed",
            box_sign(picture, FLUSHED, ALARM, fill="#ffffff", stroke=ALARM, stroke_dasharray="2 2"),
        )
    if any(it.stopped is not None for it in window.lives.values()):
        legend.add(16, "stops the run", box_sign(picture, STOPPED, INK, fill="#ffffff", stroke=INK))
    if any(it.late is not None for it in window.lives.values()):
        legend.add(
            10, "its late write is done", lambda x, y: picture.text(x, y, LATE, 10, weight="bold")
        )
    return legend


def box_sign(picture, words, ink, **style):
    def draw(x, y):
        picture.rectangle(x, y - 10, 16, 13, **style)
        picture.text(x + 8, y - 0.5, words, 9, anchor="middle", fill=ink)

    return draw


# The log


def kanata_lines(trace, first, most, source, words):
    """The lines of a Kanata 0004 log of some rows; `words` takes the words by address."""
    lines = ["Kanata\t0004", f"C=\t{first}"]
    log = Log(source)
    for row in trace:
        take_words(words, row)
        if first <= row.number < first + most:
            if row.number > first:
                lines.append("C\t1")
            log.take_row(lines, row)
    if not log.numbers:
        raise BadInput(f"the trace has no instruction from row {first} on")
    return lines + ["C\t1"] + log.ends


class Shown:
    """An instruction in a log: its number there, and the stage and the hold that were told last."""

    __slots__ = ("number", "stage", "hold")

    def __init__(self, number):
        self.number = number
        self.stage = self.hold = ""


class Log:
    """What a log has to keep of the rows before: the instructions in the pipeline, the numbers of
    all, and what ends."""

    def __init__(self, source):
        self.source = source
        self.numbers = {}
        self.shown = {}
        self.ends = []
        self.retired = 0

    def take_row(self, lines, row):
        """Adds the lines of a row, behind what ended in the row before."""
        lines += self.ends
        self.ends = []
        names = STAGES[len(row.cells)]
        for stage in range(len(row.cells) - 1, -1, -1):
            cell = row.cells[stage]
            if cell is not None:
                shown = self.shown.get(cell.serial) or self._begin(lines, cell)
                letter = names[stage][0]
                if shown.stage != letter:
                    self._enter(lines, shown, letter)
                if shown.hold != cell.hold_name:
                    self._hold(lines, shown, cell)
        for serial in row.flushed:
            self._end(serial, 1)
        if row.retirement is not None:
            number, it = self.numbers[row.retired], row.retirement
            lines.append(f"L\t{number}\t1\t{it.word} {it.writes}".rstrip())
            self._end(row.retired, 0)
            self.retired += 1

    def _begin(self, lines, cell):
        number = self.numbers[cell.serial] = len(self.numbers)
        known = self.source is None or cell.address in self.source
        text = source_text(self.source, cell.address) if known else ""
        lines.append(f"I\t{number}\t{cell.serial}\t0")
        lines.append(f"L\t{number}\t0\t{cell.address}{' ' + text if text else ''}")
        shown = self.shown[cell.serial] = Shown(number)
        return shown

    def _enter(self, lines, shown, letter):
        if shown.stage:
            lines.append(f"E\t{shown.number}\t0\t{shown.stage}")
        lines.append(f"S\t{shown.number}\t0\t{letter}")
        shown.stage = letter

    def _hold(self, lines, shown, cell):
        """A hold is a stage of the second lane; what it waits for is a line between both."""
        if shown.hold:
            lines.append(f"E\t{shown.number}\t1\t{shown.hold}")
        if cell.hold:
            lines.append(f"S\t{shown.number}\t1\t{cell.hold_name}")
            _, other = hold_parts(cell.hold)
            if cell.hold_name not in COUNTED_HOLDS and other in self.numbers:
                lines.append(f"W\t{shown.number}\t{self.numbers[other]}\t0")
        shown.hold = cell.hold_name

    def _end(self, serial, kind):
        """What ends with a row, by retirement (0) or flush (1), is told in the next cycle."""
        shown = self.shown.pop(serial)
        self.ends.append(f"E\t{shown.number}\t0\t{shown.stage}")
        self.ends.append(f"R\t{shown.number}\t{self.retired}\t{kind}")


def parse_options():
    parser = argparse.ArgumentParser(
        description="Makes an SVG pipeline diagram of a trace, or with --kanata a Kanata 0004 log "
        "for pipeline viewers.",
        epilog="Exit status: 0 done, 1 an input is refused, 2 a wrong command line. "
        "Example: ./ixt run EXT SHEET IMAGE WAITS 40 | tools/user/trace_picture.py -o run.svg",
    )
    parser.add_argument("trace", nargs="?", default="-", help="the trace (else standard input)")
    parser.add_argument(
        "--kanata",
        action="store_true",
        help="write a Kanata log; it has all rows unless --rows is given",
    )
    parser.add_argument(
        "--from",
        dest="first",
        metavar="ROW",
        type=natural,
        default=0,
        help="the first row that is shown (else 0)",
    )
    rows = f"how many rows are shown (in a diagram at most {MOST_ROWS})"
    parser.add_argument("--rows", metavar="N", type=positive, help=rows)
    parser.add_argument(
        "--source",
        metavar="FILE",
        help="the assembly source or the image of the program, for its lines",
    )
    parser.add_argument(
        "--name", help="what the run is called in the diagram (else the file's name)"
    )
    add_output_option(parser)
    options = parser.parse_args()
    if not options.kanata and options.rows is not None and options.rows > MOST_ROWS:
        parser.error(f"a diagram shows at most {MOST_ROWS} rows")
    if options.name is None:
        options.name = "a run" if options.trace == "-" else options.trace.rpartition("/")[2]
    return options


def main():
    # rows make no cycles of objects, and looking for some takes a third of the time
    gc.disable()
    options = parse_options()
    source = read_source(options.source) if options.source else None
    trace = Trace(options.trace)
    if options.kanata:
        words = {}
        most = options.rows or ALL_ROWS
        lines = kanata_lines(trace, options.first, most, source, words)
    else:
        window = read_window(trace, options.first, options.rows or MOST_ROWS)
        words = window.words
    if source is not None:
        check_source(source, words)
    text = "\n".join(lines) + "\n" if options.kanata else diagram(window, source, options.name)
    write_output(options.output, text)


if __name__ == "__main__":
    finish(main)
