#!/usr/bin/env python3
"""A report of `ixt schedule` as an SVG picture: times across, operations down.

Each operation is a bar in its time, as long as its share of the period; operations that feed each
other within one time are joined, so a chain is seen as a stair. A result that is used in a later
time has a register at each clock edge between. Behind each operation stands the bound that holds it
where it is. Of a behaviour without a schedule the picture shows the cycle of bounds that contradict
each other.
"""
import argparse
from typing import NamedTuple

from ixt_svg import (
    ALARM,
    HAIR,
    INK,
    PALE,
    SHADES,
    STANDING,
    Legend,
    Picture,
    fitted,
    step_of,
    text_width,
)
from ixt_texts import (
    CORE_KINDS,
    GATE_KINDS,
    BadInput,
    Bound,
    add_output_option,
    finish,
    kind_name,
    lines_of,
    parse_report,
    write_output,
)

MOST_OPERATIONS = 256
MOST_IN_BLOCK = 110
MOST_WITH_READS = 40
LEAST_LINE = 6.5
WINDOW = "#ececec"
HELD_BY = "held by"
CORE, GATES, WIRES = SHADES[0], SHADES[2], SHADES[4]


# What a schedule comes to


class Facts:
    """What follows from the times of a behaviour, by operation: `start` and `finish` within its
    time in units of delay, `before` the operation of the same time for which it waits (or None),
    `kept` the last time in which its result is used, and `held` its bound.
    """

    def __init__(self, behaviour, period):
        self.behaviour = behaviour
        self.period = period
        operations = behaviour.operations
        self.ins = [[] for _ in operations]
        self.outs = [[] for _ in operations]
        for first, second in behaviour.edges:
            self.ins[second].append(first)
            self.outs[first].append(second)
        self.start, self.finish, self.before = [], [], []
        for it in operations:
            self._place(it)
        self.kept = [
            max([operations[to].time for to in self.outs[it.number]], default=it.time)
            for it in operations
        ]
        self.held = [self._held(it) for it in operations]

    def _place(self, it):
        """When an operation starts and finishes within its time: behind the last of those of the
        same time that feed it."""
        operations = self.behaviour.operations
        feeding = [
            at
            for at in self.ins[it.number]
            if operations[at].time == it.time and operations[at].latency == 0
        ]
        last = max(feeding, key=lambda at: self.finish[at], default=None)
        start = self.finish[last] if last is not None else 0
        self.before.append(last)
        self.start.append(start)
        self.finish.append(start + it.delay)

    def registers(self, it):
        """The times at whose start a register holds the result of an operation."""
        return range(it.time + it.latency + 1, self.kept[it.number] + 1)

    def _held(self, it):
        """The bound that holds an operation where it is, and whether it is one against a later
        time: so it is where a later time would cost less, else one against an earlier time. Of
        several that are exact, one of the flow is taken. None where a report has no such bound.
        """
        wants_later = 1 + len(self.ins[it.number]) < len(self.outs[it.number])
        exact = [
            bound
            for bound in self.behaviour.flows
            if ends(bound, wants_later) == it.number and self._is_exact(bound)
        ]
        return (
            max(exact, key=lambda one: one.amount, default=None)
            or self._exact_bound(it, wants_later),
            wants_later,
        )

    def _is_exact(self, bound):
        first, last = (self.behaviour.operations[bound.operations[at]] for at in (0, -1))
        if bound.name == "early":
            return first.time == first.early
        if bound.name == "late":
            return first.time == first.late
        return last.time - first.time == (first.latency if bound.name == "dep" else 1)

    def _exact_bound(self, it, wants_later):
        """An exact bound against a later or an earlier time, or None."""
        number = it.number
        if wants_later:
            bounds = [Bound("late", [number], 0)] + [
                Bound("dep", [number, to], 0) for to in self.outs[number]
            ]
        else:
            bounds = [Bound("early", [number], 0)] + [
                Bound("dep", [at, number], 0) for at in self.ins[number]
            ]
        found = next((bound for bound in bounds if self._is_exact(bound)), None)
        if found is None:
            chain = self._chain(it, wants_later)
            found = Bound("chain", chain, 0) if chain else None
        return found

    def _chain(self, it, forwards):
        """Operations along edges without latency, from the operation on or up to it, whose delays
        come to more than the period and whose ends are one time apart; or None."""
        operations = self.behaviour.operations
        step = self.outs if forwards else self.ins
        sums, back = {it.number: it.delay}, {}
        order = range(it.number, len(operations)) if forwards else range(it.number, -1, -1)
        for at in order:
            if at not in sums:
                continue
            if sums[at] > self.period and abs(operations[at].time - it.time) == 1:
                return path_between(at, back, forwards)
            for to in step[at]:
                inner = operations[at if forwards else to]
                if inner.latency == 0 and sums[at] + operations[to].delay > sums.get(to, -1):
                    sums[to], back[to] = sums[at] + operations[to].delay, at
        return None


def path_between(last, back, forwards):
    """The way back from an operation to the one where the search began, in the order of the
    edges."""
    path = [last]
    while path[-1] in back:
        path.append(back[path[-1]])
    return path[::-1] if forwards else path


def ends(bound, wants_later):
    """The operation that a bound holds: against a later time its first, against an earlier one its
    last; None where it holds none so."""
    if bound.name == ("early" if wants_later else "late"):
        return None
    return bound.operations[0 if wants_later else -1]


def bound_text(bound, most=5):
    """A bound as the report has it, with the middle of a long chain left out."""
    numbers = [str(it) for it in bound.operations]
    if len(numbers) > most:
        kept = max(most // 2, 1)
        numbers = numbers[:kept] + [".."] + numbers[-kept:]
    return " ".join([bound.name, *numbers])


def held_text(held, short):
    """What holds an operation, in words; the short form leaves away what most have."""
    bound, later = held
    if bound is None:
        return "-"
    side = "not later: " if later else "" if short else "not earlier: "
    return side + bound_text(bound, 2 if short else 5)


# The page


class Block(NamedTuple):
    """Operations of a behaviour that stand below each other, and the head above them."""

    head: str
    facts: object
    operations: list


class Frame(NamedTuple):
    """Where a block is drawn, in pixels, and the first and the last time of its columns."""

    left: float
    top: float
    width: float
    line: float
    size: float
    labels: float
    bounds: float
    first: int
    last: int
    short: bool

    def wide(self):
        """The width of a time."""
        return min(190, (self.width - self.labels - self.bounds - 8) / (self.last - self.first + 1))

    def column(self, time):
        """The left edge of a time."""
        return self.left + self.labels + self.wide() * (time - self.first)

    def middle(self, at):
        return self.top + self.line * (at + 0.5)


def schedule_page(behaviours, period):
    """The picture of behaviours that have schedules."""
    facts = [Facts(it, period) for it in behaviours]
    wide = len(facts) == 1 and len(behaviours[0].operations) > MOST_IN_BLOCK
    blocks = (
        split_block(facts[0])
        if wide
        else [Block(head_of(it), it, it.behaviour.operations) for it in facts]
    )
    heads = 46
    lines = (
        max(len(it.operations) for it in blocks)
        if wide
        else sum(len(it.operations) for it in blocks)
    )
    line = min(16, (STANDING[1] - 120 - heads * (1 if wide else len(blocks))) / max(lines, 1))
    if line < LEAST_LINE:
        names = ", ".join(it.name for it in behaviours)
        raise BadInput(
            f"the behaviours do not fit on one page: choose one of {names} by --behaviour NAME"
        )
    picture = Picture("Schedule of " + ", ".join(it.name for it in behaviours))
    bottom, right, top = 0, 560, 8
    for at, block in enumerate(blocks):
        width = STANDING[0] / 2 - 8 if wide else STANDING[0] - 16
        left = 8 + at * STANDING[0] / 2 if wide else 8
        frame = frame_of(block, (left, top + heads), width, line, wide)
        draw_block(picture, frame, block)
        bottom = max(bottom, frame.top + line * len(block.operations))
        right = max(
            right,
            frame.column(frame.last + 1) + 8 + frame.bounds,
            min(24 + text_width(block.head, 11), STANDING[0]),
        )
        top = 8 if wide else bottom + 10
    legend = schedule_legend(picture, facts, (bottom + 22, right - 16), period, wide)
    return picture.whole(right, legend.bottom())


def split_block(facts):
    """The two halves of a behaviour with many operations, which stand side by side."""
    operations = facts.behaviour.operations
    half = (len(operations) + 1) // 2
    return [Block(head_of(facts), facts, operations[:half]), Block("", facts, operations[half:])]


def head_of(facts):
    it = facts.behaviour
    registers = sum(len(facts.registers(one)) for one in it.operations)
    sizes = f"{counted(len(it.operations), 'operation')}, {counted(registers, 'register')}"
    return f"{it.name}: {it.mode}, {sizes}, cost {it.cost}"


def counted(count, word):
    return f"{count} {word}{'' if count == 1 else 's'}"


def frame_of(block, corner, width, line, short):
    """The frame of a block; in the short form it has the times of the block alone."""
    size = min(10, line * 0.72)
    facts, operations = block.facts, block.operations
    labels = max((text_width(label_of(it), size) for it in operations), default=0) + 8
    held = [HELD_BY] + [held_text(facts.held[it.number], short) for it in operations]
    bounds = max(text_width(it, size + 1 if it == HELD_BY else size) for it in held) + 10
    first = min((it.time if short else it.early for it in operations), default=0)
    last = max((max(it.time + it.latency, facts.kept[it.number]) for it in operations), default=0)
    return Frame(*corner, width, line, size, labels, min(bounds, width * 0.45), first, last, short)


def label_of(it):
    return f"{it.number} {it.kind}"


def draw_block(picture, frame, block):
    picture.text(
        frame.left, frame.top - 32, fitted(block.head, 11, STANDING[0] - 16), 11, weight="bold"
    )
    bottom = frame.top + frame.line * len(block.operations)
    draw_times(picture, frame, bottom)
    picture.text(
        frame.column(frame.last + 1) + 8, frame.top - 5, HELD_BY, min(9, frame.size + 1), fill=PALE
    )
    places = {it.number: at for at, it in enumerate(block.operations)}
    for it in block.operations:
        draw_window(picture, frame, places[it.number], it)
    for it in block.operations:
        draw_joins(picture, frame, places, block.facts, it)
    for it in block.operations:
        draw_operation(picture, frame, places[it.number], block.facts, it)


def draw_times(picture, frame, bottom):
    """Lines between the times, which are clock edges, and the numbers of the times above."""
    wide = frame.wide()
    size = min(9, frame.size + 1)
    step = step_of(wide, text_width(str(frame.last), size))
    for time in range(frame.first, frame.last + 2):
        picture.line(frame.column(time), frame.top, frame.column(time), bottom)
        if time <= frame.last and time % step == 0:
            words = (
                f"time {time}" if text_width(f"time {frame.last}", size) + 4 <= wide else str(time)
            )
            picture.text(frame.column(time) + wide / 2, frame.top - 5, words, size, anchor="middle")


def draw_window(picture, frame, at, it):
    """The times in which the core can do an operation on it."""
    if kind_name(it.kind) in CORE_KINDS:
        left = frame.column(max(it.early, frame.first))
        right = frame.column(min(it.late, frame.last) + 1)
        picture.rectangle(
            left, frame.top + frame.line * at + 0.5, right - left, frame.line - 1, fill=WINDOW
        )


def place_of(frame, facts, time, delay):
    """Where a delay within a time is in the picture."""
    left, right = frame.column(time), frame.column(time + 1)
    gap = min(5, (right - left) * 0.15)
    return left + gap + (right - left - 2 * gap) * min(delay / facts.period, 1)


def draw_joins(picture, frame, places, facts, it):
    """A line from the operation of the same time for which this one waits, and in small pictures
    from the registers that it reads."""
    x = place_of(frame, facts, it.time, facts.start[it.number])
    middle = frame.middle(places[it.number])
    before = facts.before[it.number]
    if before in places:
        picture.line(
            x,
            frame.middle(places[before]),
            x,
            middle,
            stroke=PALE,
            stroke_width=max(0.6, frame.line / 16),
        )
    if len(facts.behaviour.operations) > MOST_WITH_READS:
        return
    for at in facts.ins[it.number]:
        if at in places and it.time in facts.registers(facts.behaviour.operations[at]):
            edge = frame.column(it.time) + 5
            picture.path(
                [(edge, frame.middle(places[at])), (edge, middle), (max(x, edge), middle)],
                stroke=PALE,
                stroke_width=0.6,
            )


def draw_result(picture, frame, middle, facts, it):
    """The lines from an operation on: while the core is at work, and while its result is kept."""
    end = place_of(frame, facts, it.time, facts.finish[it.number])
    if it.latency:
        there = frame.column(it.time + it.latency) + 4
        picture.line(end, middle, there, middle, stroke=INK, stroke_dasharray="1.5 1.5")
        end = there
    registers = facts.registers(it)
    if registers:
        last = frame.column(registers[-1]) + 5
        picture.line(end, middle, last, middle, stroke=INK, stroke_width=0.8)


def draw_operation(picture, frame, at, facts, it):
    middle = frame.middle(at)
    base = middle + frame.size * 0.36
    picture.text(frame.left, base, label_of(it), frame.size)
    picture.text(
        frame.column(frame.last + 1) + 8,
        base,
        fitted(held_text(facts.held[it.number], frame.short), frame.size, frame.bounds),
        frame.size,
    )
    left = place_of(frame, facts, it.time, facts.start[it.number])
    right = place_of(frame, facts, it.time, facts.finish[it.number])
    draw_result(picture, frame, middle, facts, it)
    shade = shade_of(it)
    wide, tall = max(right - left, 3), frame.line * 0.62
    tip = (
        f"operation {it.number} {it.kind} at time {it.time}, delay {it.delay}, "
        f"window {it.early} to {it.late}"
    )
    picture.rectangle(
        left - (1.5 if wide == 3 else 0),
        middle - tall / 2,
        wide,
        tall,
        tip,
        fill=shade.fill,
        stroke=shade.edge,
        stroke_width=0.8,
    )
    for time in facts.registers(it):
        draw_register(
            picture, frame.column(time), middle, min(frame.line * 0.7, frame.wide() * 0.45)
        )


def draw_register(picture, x, middle, tall):
    picture.polygon(
        [
            (x - tall * 0.28, middle - tall / 2),
            (x + tall * 0.28, middle),
            (x - tall * 0.28, middle + tall / 2),
        ],
        fill=INK,
    )


def shade_of(it):
    kind = kind_name(it.kind)
    return CORE if kind in CORE_KINDS else GATES if kind in GATE_KINDS else WIRES


def schedule_legend(picture, facts, place, period, short):
    top, room = place
    legend = Legend(picture, 8, top, room)
    operations = [it for one in facts for it in one.behaviour.operations]
    names = {
        CORE: "an operation on the core",
        GATES: f"an operator; a time is {period} wide",
        WIRES: "wires alone",
    }
    for shade, words in names.items():
        if any(shade_of(it) is shade for it in operations):
            legend.add(14, words, bar_sign(picture, shade))
    if any(shade_of(it) is CORE for it in operations):
        legend.add(
            14,
            "when the core can do it",
            lambda x, y: picture.rectangle(x, y - 9, 14, 11, fill=WINDOW),
        )
    if any(it.number in one.before for one in facts for it in one.behaviour.operations):
        legend.add(
            6,
            "waits within its time: a chain",
            lambda x, y: picture.line(x + 3, y - 10, x + 3, y + 2, stroke=PALE),
        )
    if any(one.registers(it) for one in facts for it in one.behaviour.operations):
        legend.add(
            8, "a register at a clock edge", lambda x, y: draw_register(picture, x + 4, y - 3, 11)
        )
    if any(it.latency for it in operations):
        legend.add(
            14,
            "the core is at work",
            lambda x, y: picture.line(
                x, y - 3, x + 14, y - 3, stroke=INK, stroke_dasharray="1.5 1.5"
            ),
        )
    if short:
        legend.add(0, "held by: not earlier, where it does not say later", lambda x, y: None)
    return legend


def bar_sign(picture, shade):
    return lambda x, y: picture.rectangle(
        x, y - 8, 14, 9, fill=shade.fill, stroke=shade.edge, stroke_width=0.8
    )


# No schedule


class Step(NamedTuple):
    """A bound of a cycle, the operation that it speaks of, the least time that it leaves, and what
    it says."""

    bound: Bound
    operation: int
    time: int
    words: str


def cycle_steps(behaviour, period):
    """The story that a cycle tells, from the start on or, where that is not in it, from an
    operation on."""
    cycle = behaviour.cycle
    start = next((at for at, it in enumerate(cycle) if it.name == "early"), 0)
    steps, time = [], 0
    for bound in cycle[start:] + cycle[:start]:
        operations = [behaviour.operations[it] for it in bound.operations]
        if bound.name == "early":
            time = operations[0].early
            words = f"not before time {time}"
        elif bound.name == "late":
            words = f"not after time {operations[0].late}, but {time} is the first"
            steps.append(Step(bound, operations[0].number, time, words))
            time = 0
            continue
        elif bound.name == "dep":
            time += operations[0].latency
            words = f"not before the result of {operations[0].number}"
        else:
            time += 1
            delays = sum(it.delay for it in operations)
            words = f"{delays} is more than {period}: a time later than {operations[0].number}"
        steps.append(Step(bound, operations[-1].number, time, words))
    return steps


def cycle_page(behaviour, period):
    """The picture of a behaviour without a schedule: the demands of its cycle, one below the
    other."""
    steps = cycle_steps(behaviour, period)
    if len(steps) > MOST_IN_BLOCK:
        raise BadInput(
            f"the cycle of {behaviour.name} has {len(steps)} bounds; "
            f"a picture has room for {MOST_IN_BLOCK}"
        )
    rooted = any(it.bound.name == "early" for it in steps)
    picture = Picture(f"Why {behaviour.name} has no schedule")
    line = min(18, (STANDING[1] - 140) / len(steps))
    size = min(10, line * 0.62)
    labels = [f"{bound_text(it.bound)}" for it in steps]
    names = [label_of(behaviour.operations[it.operation]) for it in steps]
    words = max(text_width(it.words, size) for it in steps) + 12
    left = (
        max(text_width(it, size) for it in labels) + max(text_width(it, size) for it in names) + 30
    )
    first = min(it.time for it in steps) if rooted else 0
    last = max(it.time for it in steps)
    frame = Frame(8, 54, STANDING[0] - 16, line, size, left, words, first, last, False)
    draw_cycle(picture, frame, behaviour, steps, rooted)
    right = max(frame.column(last + 1) + 8 + words, 560)
    return picture.whole(
        right,
        cycle_legend(
            picture, steps, (frame.top + line * len(steps) + 22, right - 16), rooted
        ).bottom(),
    )


def draw_cycle(picture, frame, behaviour, steps, rooted):
    picture.text(
        frame.left,
        16,
        fitted(
            f"{behaviour.name}: no schedule, since these demands contradict each other",
            11,
            frame.width,
        ),
        11,
        weight="bold",
    )
    names = frame.left + max(text_width(bound_text(it.bound), frame.size) for it in steps) + 14
    picture.text(frame.left, frame.top - 5, "demand", 9, fill=PALE)
    picture.text(names, frame.top - 5, "of operation", 9, fill=PALE)
    bottom = frame.top + frame.line * len(steps)
    wide = frame.wide()
    step = step_of(wide, text_width(time_text(frame.last, rooted, wide), 9))
    for time in range(frame.first, frame.last + 2):
        picture.line(frame.column(time), frame.top, frame.column(time), bottom)
        if time <= frame.last and time % step == 0:
            picture.text(
                frame.column(time) + wide / 2,
                frame.top - 5,
                time_text(time, rooted, wide),
                9,
                anchor="middle",
            )
    for at, step in enumerate(steps):
        draw_step(picture, frame, behaviour, steps, at, names)
    draw_way(picture, frame, steps, rooted)


def time_text(time, rooted, wide):
    if not rooted:
        return f"t + {time}" if time else "t"
    return f"time {time}" if wide > 50 else str(time)


def draw_step(picture, frame, behaviour, steps, at, names):
    step = steps[at]
    operation = behaviour.operations[step.operation]
    base = frame.middle(at) + frame.size * 0.36
    picture.text(frame.left, base, bound_text(step.bound), frame.size)
    picture.text(names, base, label_of(operation), frame.size)
    last = at == len(steps) - 1
    picture.text(
        frame.column(frame.last + 1) + 8, base, step.words, frame.size, fill=ALARM if last else INK
    )
    if step.bound.name == "late" and operation.late >= frame.first:
        left, right = frame.column(frame.first), frame.column(min(operation.late, frame.last) + 1)
        picture.rectangle(
            left, frame.top + frame.line * at + 1, right - left, frame.line - 2, fill=WINDOW
        )


def draw_way(picture, frame, steps, rooted):
    """Dots for the least times, joined from demand to demand; the last one, which cannot be, stands
    out."""
    points = [
        (frame.column(it.time) + frame.wide() / 2, frame.middle(at)) for at, it in enumerate(steps)
    ]
    if not rooted:
        points.insert(0, (frame.column(0) + frame.wide() / 2, frame.middle(0)))
    picture.path(points, stroke=PALE, stroke_width=0.8)
    for at, (x, y) in enumerate(points):
        last = at == len(points) - 1
        if last:
            picture.rectangle(x - 4, y - 4, 8, 8, fill="#ffffff", stroke=ALARM, stroke_width=1.8)
        else:
            picture.circle(x, y, 3.5, fill=GATES.fill, stroke=GATES.edge)


def cycle_legend(picture, steps, place, rooted):
    top, room = place
    legend = Legend(picture, 8, top, room)
    if len(steps) > 1 or not rooted:
        legend.add(
            8,
            "the first time that the demands leave so far",
            lambda x, y: picture.circle(x + 4, y - 3, 3.5, fill=GATES.fill, stroke=GATES.edge),
        )
    words = "the demand that cannot be met" if rooted else "the same operation, later than itself"
    legend.add(
        10,
        words,
        lambda x, y: picture.rectangle(
            x + 1, y - 7, 8, 8, fill="#ffffff", stroke=ALARM, stroke_width=1.8
        ),
    )
    if any(it.bound.name == "late" for it in steps):
        legend.add(
            14,
            "when the core can do it",
            lambda x, y: picture.rectangle(x, y - 9, 14, 11, fill=WINDOW),
        )
    return legend


def chosen(report, name):
    """The behaviours that are shown: the one with the name, else all."""
    if not report.behaviours:
        raise BadInput("the report has no behaviour")
    found = [it for it in report.behaviours if name in (None, it.name)]
    if not found:
        raise BadInput(
            f"no behaviour is named {name}: "
            f"there are {', '.join(it.name for it in report.behaviours)}"
        )
    for it in found:
        if len(it.operations) > MOST_OPERATIONS:
            raise BadInput(
                f"{it.name} has {len(it.operations)} operations; "
                f"a picture has room for {MOST_OPERATIONS}"
            )
    return found


def main():
    parser = argparse.ArgumentParser(
        description="Draws the report of a schedule: times across, operations down, with chains, "
        "registers and what holds each operation.",
        epilog="Exit status: 0 done, 1 an input is refused, 2 a wrong command line. "
        "Example: ./ixt schedule EXT SHEET | tools/user/schedule_picture.py -o schedule.svg",
    )
    parser.add_argument("report", nargs="?", default="-", help="the report (else standard input)")
    parser.add_argument(
        "--behaviour", metavar="NAME", help="the behaviour that is drawn (else all of the report)"
    )
    add_output_option(parser)
    options = parser.parse_args()
    name = "standard input" if options.report == "-" else options.report
    report = parse_report(lines_of(options.report), name)
    behaviours = chosen(report, options.behaviour)
    without = [it for it in behaviours if it.mode == "none"]
    if without and len(behaviours) > 1:
        raise BadInput(
            f"{without[0].name} has no schedule: choose it, or another one, by --behaviour NAME"
        )
    text = (
        cycle_page(without[0], report.period)
        if without
        else schedule_page(behaviours, report.period)
    )
    write_output(options.output, text)


if __name__ == "__main__":
    finish(main)
