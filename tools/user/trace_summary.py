#!/usr/bin/env python3
"""Where the cycles of a run go: a summary of a trace that `ixt run` wrote.

A cycle is lost where no instruction retires in it. Its cause is why the last stage had nothing to
retire: an instruction stayed in it, or the gap in it began earlier in the pipeline, where an
instruction stayed behind an empty stage, was dropped behind a jump, or was not there to be fetched.
So the cycles with a retirement and the lost ones of each cause sum to all cycles.
"""
import argparse
import gc
from collections import Counter, defaultdict
from typing import NamedTuple

from ixt_texts import (
    COUNTED_HOLDS,
    HOLDS,
    BadInput,
    Trace,
    add_output_option,
    check_source,
    finish,
    hold_parts,
    positive,
    read_source,
    redirector_of,
    source_text,
    write_output,
)

# Causes of gaps that are no hold of an instruction.
REDIRECT = "Redirect"
INTERRUPT = "Interrupt"
NO_FETCH = "NoFetch"
FILLING = "Filling"
GAP_TEXTS = {
    REDIRECT: "dropped behind a jump or a taken branch, or not there before it",
    INTERRUPT: "dropped before a handler, as an interrupt is taken",
    NO_FETCH: "no word stands at the next address",
    FILLING: "the pipeline fills at the start",
}


class Cause(NamedTuple):
    """Why a cycle was lost: the name of the cause, what was waited for, and the address to which it
    is charged, or None."""

    name: str
    detail: str
    address: str


class Account:
    """The sums of a trace. `lost` counts lost cycles by cause, `waits` the cycles that instructions
    stayed by hold."""

    def __init__(self):
        self.cycles = self.retired = self.flushed = self.redirects = 0
        self.stop = None
        self.lost = Counter()
        self.waits = Counter()
        self.retired_at = Counter()
        self.waits_at = Counter()
        self.lost_at = defaultdict(Counter)
        self.words = {}


def account(trace):
    """The sums of a trace's rows; BadInput where they are no rows of a pipeline."""
    sums, addresses, before, gaps = Account(), {}, None, []
    for row in trace:
        first = row.cells[0]
        if first is not None:
            addresses[first.serial] = first.address
        gaps = gaps_of(row, before, gaps, addresses)
        count_row(sums, row)
        if row.retired is None:
            cause = lost_cause(row, gaps, addresses)
            sums.lost[cause.name] += 1
            if cause.address is not None:
                sums.lost_at[cause.address][cause.name + cause.detail] += 1
        before = row
    sums.words = dict.fromkeys(addresses.values(), "") | sums.words
    return sums


def count_row(sums, row):
    """Adds what a row tells by itself."""
    sums.cycles += 1
    sums.stop = row.stop
    if row.retired is not None:
        sums.retired += 1
        sums.retired_at[row.retirement.address] += 1
        sums.words[row.retirement.address] = row.retirement.word
    if row.flushed:
        sums.flushed += len(row.flushed)
    if row.redirect is not None:
        sums.redirects += 1
    for cell in row.cells:
        if cell is not None and cell.hold:
            sums.waits[cell.hold_name] += 1
            sums.waits_at[cell.address] += 1


def gaps_of(row, before, gaps, addresses):
    """For each stage that is empty in a row the cause of it; None for the others. `gaps` is that of
    the row before."""
    found = [None] * len(row.cells)
    if None not in row.cells:
        return found
    for stage, cell in enumerate(row.cells):
        if cell is None:
            found[stage] = gap_cause(row, stage, before, gaps, addresses)
    redirector = redirector_of(row) if row.redirect is not None else None
    if redirector is not None:
        charge_redirect(row, redirector, found)
    return found


def gap_cause(row, stage, before, gaps, addresses):
    """Why this stage is empty, by what stood in the stage before it in the row before."""
    if stage == 0:
        return Cause(NO_FETCH, "", None)
    if before is None:
        return Cause(FILLING, "", None)
    cell = before.cells[stage - 1]
    if cell is None:
        return gaps[stage - 1]
    if cell.hold:
        return hold_cause(cell, addresses)
    if cell.serial in before.flushed and before.taken is not None:
        return Cause(INTERRUPT, "", None)
    if cell.serial in before.flushed:
        redirector = redirector_of(before)
        return Cause(REDIRECT, "", redirector.address if redirector else None)
    raise BadInput(
        f"row {row.number} is no row of a pipeline: the instruction {cell.serial} is gone from it"
    )


def charge_redirect(row, redirector, found):
    """Where nothing could be fetched before a jump, the jump is the cause: younger instructions
    were not there to be dropped."""
    for stage, cell in enumerate(row.cells):
        if cell is redirector:
            break
        if found[stage] is not None and found[stage].name == NO_FETCH:
            found[stage] = Cause(REDIRECT, "", redirector.address)


def hold_cause(cell, addresses):
    """The cause that a hold is, charged to the instruction that waits, with what it waits for."""
    name = cell.hold_name
    register, number = hold_parts(cell.hold)
    words = [f" {register}"] if register else []
    if name not in COUNTED_HOLDS and number in addresses:
        words.append(f" of {addresses[number]}")
    return Cause(name, "".join(words), cell.address)


def lost_cause(row, gaps, addresses):
    """Why nothing retires in a row."""
    last = row.cells[-1]
    if last is None:
        return gaps[-1]
    if not last.hold:
        raise BadInput(
            f"row {row.number} is no row of a pipeline: "
            f"the instruction {last.serial} neither retires nor stays"
        )
    return hold_cause(last, addresses)


# The text


def summary_text(sums, source, top):
    lines = head_lines(sums) + [""] + cause_lines(sums)
    if sums.lost_at:
        lines += [""] + address_lines(sums, source, top)
    return "\n".join(lines) + "\n"


def head_lines(sums):
    per_instruction = f"{sums.cycles / sums.retired:.2f}" if sums.retired else "-"
    return [
        f"cycles                 {sums.cycles:>8}",
        f"retired instructions   {sums.retired:>8}",
        f"cycles per instruction {per_instruction:>8}",
        f"redirects of the fetch {sums.redirects:>8}",
        f"flushed instructions   {sums.flushed:>8}",
        f"stopped by             {sums.stop or '-':>8}",
    ]


def cause_lines(sums):
    """A line for each cause: the cycles that it lost, and the cycles that instructions stayed for
    it."""
    lines = [
        "cycles  share   stays  in cycles in which",
        f"{sums.retired:>6} {share(sums.retired, sums.cycles)}       -  an instruction retires",
    ]
    names = sorted(
        set(sums.lost) | set(sums.waits), key=lambda it: (-sums.lost[it], -sums.waits[it], it)
    )
    for name in names:
        text = (
            f"{name}: an instruction waits for {HOLDS[name][1]}"
            if name in HOLDS
            else f"{name}: {GAP_TEXTS[name]}"
        )
        waits = str(sums.waits[name]) if name in HOLDS else "-"
        lines.append(
            f"{sums.lost[name]:>6} {share(sums.lost[name], sums.cycles)} {waits:>7}  {text}"
        )
    return lines


def share(part, whole):
    return f"{100 * part / whole:5.1f}%" if whole else "     -"


def address_lines(sums, source, top):
    """A line for each address that lost most cycles, and below it what they were lost for."""
    ordered = sorted(sums.lost_at, key=lambda it: (-sum(sums.lost_at[it].values()), it))
    lines = [
        f"{'address':<8} {'retired':>7} {'lost':>6}  the addresses that lost most cycles, and why"
    ]
    for address in ordered[:top]:
        causes = sums.lost_at[address]
        numbers = f"{sums.retired_at[address]:>7} {sum(causes.values()):>6}"
        lines.append(f"{address} {numbers}  {place_text(source, address)}".rstrip())
        for cause, count in sorted(causes.items(), key=lambda it: (-it[1], it[0])):
            lines.append(f"{'':16} {count:>6}  {cause}")
    if len(ordered) > top:
        lines.append(f"(and {len(ordered) - top} more: --top N shows more)")
    return lines


def place_text(source, address):
    return f"line {source[address].number}: {source_text(source, address)}" if source else ""


def main():
    # rows make no cycles of objects, and looking for some takes a third of the time
    gc.disable()
    parser = argparse.ArgumentParser(
        description="Says where the cycles of a run go: cycles, retirements, lost cycles by cause, "
        "and the addresses that lost most.",
        epilog="Exit status: 0 done, 1 an input is refused, 2 a wrong command line. "
        "Example: ./ixt run EXT SHEET IMAGE WAITS 1000 | tools/user/trace_summary.py",
    )
    parser.add_argument("trace", nargs="?", default="-", help="the trace (else standard input)")
    parser.add_argument(
        "--source",
        metavar="FILE",
        help="the assembly source or the image of the program, for lines and labels",
    )
    parser.add_argument(
        "--top",
        metavar="N",
        type=positive,
        default=10,
        help="how many addresses are shown (else 10)",
    )
    add_output_option(parser)
    options = parser.parse_args()
    source = read_source(options.source) if options.source else None
    sums = account(Trace(options.trace))
    if source is not None:
        check_source(source, sums.words)
    write_output(options.output, summary_text(sums, source, options.top))


if __name__ == "__main__":
    finish(main)
