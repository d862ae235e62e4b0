#!/usr/bin/env python3
"""Names the kinds of operations that an extension uses and that a datasheet gives no delay.

A kind that a datasheet does not name has delay 0, so a schedule counts its operations as done at
once. That is right for wires, and mostly an oversight for gates.
"""
import argparse
import tempfile
from collections import defaultdict
from pathlib import Path

from ixt_texts import (
    CORE_KINDS,
    WIRE_KINDS,
    BadInput,
    add_output_option,
    add_program_option,
    finish,
    kind_name,
    parse_report,
    refusal_of,
    run_program,
    shown,
    write_output,
)

FOUND = 3
HEADS = {
    "gates": "gates, which take time: give each a delay under [delay]",
    "core": "on the core: the time until a read is there, or that a write has to come earlier",
    "wires": "wires alone: 0 is right",
    "given": "given as 0 in the datasheet",
}


def read_sheet(path):
    """The tables of a datasheet, of which the program judges whether they are right."""
    try:
        import tomllib
    except ImportError as fault:
        raise BadInput("reading datasheets takes Python 3.11 or later") from fault
    try:
        return tomllib.loads(Path(path).read_text(encoding="utf-8-sig"))
    except OSError as fault:
        raise BadInput(f"{path}: {fault.strerror}") from fault
    except ValueError as fault:
        raise BadInput(f"{path}: {fault} (this script reads TOML 1.0)") from fault


def used_kinds(program, extension, core):
    """The kinds of an extension's operations, and for each how many each behaviour has: they are
    those of any schedule on the core, and with no delays there is one."""
    with tempfile.TemporaryDirectory() as room:
        sheet = Path(room) / "no-delays.toml"
        sheet.write_text(f'core = "{core}"\nperiod = 1000000\n', encoding="utf-8")
        answer = run_program(program, ["schedule", extension, sheet])
    if answer.status:
        raise BadInput(f"{extension}: the program refused it: {shown(refusal_of(answer))}")
    found = defaultdict(dict)
    for behaviour in parse_report(answer.text.splitlines(), "the report").behaviours:
        for it in behaviour.operations:
            uses = found[kind_name(it.kind)]
            uses[behaviour.name] = uses.get(behaviour.name, 0) + 1
    return found


def check_sheet(program, extension, sheet):
    """The datasheet's tables, where the program takes it; a behaviour without a schedule on it is
    no matter here."""
    answer = run_program(program, ["schedule", extension, sheet])
    refusal = refusal_of(answer)
    if refusal and not refusal.startswith("refused NoSchedule "):
        raise BadInput(f"{extension} on {sheet}: the program refused: {shown(refusal)}")
    return read_sheet(sheet)


def sort_of(kind, delays):
    if kind in delays:
        return "given"
    if kind in CORE_KINDS:
        return "core"
    return "wires" if kind in WIRE_KINDS else "gates"


def check_text(used, delays):
    """The lines on the kinds with delay 0, sort by sort, and whether gates are among them."""
    groups = defaultdict(list)
    for kind in sorted(used):
        if delays.get(kind, 0) == 0:
            groups[sort_of(kind, delays)].append(kind)
    lines = []
    for sort, head in HEADS.items():
        if groups[sort]:
            lines.append(f"{head}:")
            lines += [f"  {kind:<9} {uses_text(used[kind])}" for kind in groups[sort]]
    return lines or ["every kind that is used has a delay"], bool(groups["gates"])


def uses_text(uses):
    total = sum(uses.values())
    parts = [f"{count} in {name}" for name, count in uses.items()]
    return f"{total} operation{'' if total == 1 else 's'}: {', '.join(parts)}"


def main():
    parser = argparse.ArgumentParser(
        description="Names the kinds of operations that an extension uses and that a datasheet "
        "gives delay 0.",
        epilog="Exit status: 0 done, 1 an input is refused, 2 a wrong command line, "
        f"{FOUND} a kind of gates has delay 0 since the datasheet does not name it.",
    )
    parser.add_argument("extension", help="the extension, a CoreDSL text")
    parser.add_argument("sheet", help="the datasheet")
    add_program_option(parser)
    add_output_option(parser)
    options = parser.parse_args()
    tables = check_sheet(options.ixt, options.extension, options.sheet)
    used = used_kinds(options.ixt, options.extension, tables["core"])
    lines, gates = check_text(used, tables.get("delay", {}))
    head = f"kinds of {options.extension} with delay 0 on {options.sheet}"
    write_output(options.output, "\n".join([head, *lines]) + "\n")
    return FOUND if gates else 0


if __name__ == "__main__":
    finish(main)
