#!/usr/bin/env python3
"""The ports of the modules that `ixt build` prints: a table in words, a YAML file, and a test bench
made from a run one instruction at a time.

`table` and `yaml` take a report (`ixt schedule`) and the Verilog (`ixt build`) of the same files.
`bench` takes an extension, a datasheet and a program: each use of an instruction and of a block in
`ixt seq` becomes inputs of its module and the outputs that are wanted. docs/INTEGRATION.md says
what the ports are for.
"""
import argparse
import re
import tempfile
from pathlib import Path
from typing import NamedTuple

from icarus import add_icarus_options, compile_verilog, find_icarus, simulate
from ixt_texts import (
    BadInput,
    add_output_option,
    add_program_option,
    finish,
    kind_name,
    lines_of,
    natural,
    parse_report,
    refusal_of,
    run_program,
    shown,
    write_output,
)
from port_bench import bench_of
from rtl_programs import listing_of

DIFFERS = 3
READS = ("RdInstr", "RdRS1", "RdRS2", "RdPC", "RdCustReg", "RdMem")
WRITES = ("WrRD", "WrPC", "WrCustReg", "WrMem")
FIRST = 1  # the time at which operands are read, on each core
CORES = {
    "three": ["F", "EX", "WB"],
    "four": ["F", "RD", "EX", "WB"],
    "five": ["F", "RD", "EX", "MEM", "WB"],
}
CORES["three_f"], CORES["five_f"] = CORES["three"], CORES["five"]
MODULE = re.compile(r"^module (\w+)\(([\w, ]*)\);\n(.*?)^endmodule$", re.M | re.S | re.ASCII)
DECLARATION = re.compile(r"^  (input|output)(?: \[(\d+):0\])? (\w+);$", re.M | re.ASCII)
READ_WORDS = {
    "RdInstr": "the word of the instruction",
    "RdRS1": "the value of x register rs1, bits 19 to 15 of the word",
    "RdRS2": "the value of x register rs2, bits 24 to 20 of the word",
    "RdPC": "the address of the instruction",
}
WRITE_WORDS = {
    "WrRD": "for rd, bits 11 to 7 of the word",
    "WrPC": "for the next pc",
    "WrMem": "that is stored",
}


class Port(NamedTuple):
    """A port of a module: its name, width, direction, time (None for the clock), the number of its
    operation or None, and what it is in words."""

    name: str
    width: int
    is_input: bool
    time: int | None
    operation: int | None
    words: str


class Module(NamedTuple):
    """A behaviour of a report with the ports of its module."""

    name: str
    behaviour: object
    last: int
    ports: list


# Reading


def modules_of(text, name):
    """The ports of each module of a Verilog text, by its name: pairs of direction and width."""
    found = {}
    for form in MODULE.finditer(text):
        ports = {
            word: (direction == "input", int(high or 0) + 1)
            for direction, high, word in DECLARATION.findall(form[3])
        }
        if list(ports) != form[2].split(", "):
            raise BadInput(f"{name}: the module {form[1]} declares other ports than it lists")
        found[form[1]] = ports
    if text.strip() and not found:
        raise BadInput(f"{name}: this is no Verilog text as `ixt build` prints it")
    return found


def wanted_ports(behaviour, last, stages):
    """The ports that the module of a behaviour has, in their order, without widths."""
    inputs = [Port("clk", 1, True, None, None, "the clock")]
    for time in range(FIRST, last):
        inputs.append(
            Port(f"en{time}", 1, True, time, None, enable_words(behaviour.mode, time, stages))
        )
    outputs = []
    for it in behaviour.operations:
        kind = kind_name(it.kind)
        name, width = f"{it.number}", 0
        if kind in READS:
            time = it.time + it.latency
            inputs.append(Port(f"in{name}", width, True, time, it.number, input_words(it)))
        for letter in {"RdMem": "ac", "WrMem": "avc"}.get(kind, "vc" if kind in WRITES else ""):
            words = output_words(it, letter)
            outputs.append(Port(f"out{name}_{letter}", width, False, it.time, it.number, words))
    return inputs + outputs


def whole_modules(report, verilog, stages, name):
    """The modules of a report with their ports; BadInput where the Verilog has others."""
    found = []
    for behaviour in report.behaviours:
        if behaviour.mode == "none":
            raise BadInput(f"{name}: the behaviour {behaviour.name} has no schedule")
        module = f"ixt_{behaviour.name}"
        if module not in verilog:
            raise BadInput(f"{name}: the Verilog has no module {module}: is it of this report?")
        last = max((it.time for it in behaviour.operations), default=FIRST)
        ports = wanted_ports(behaviour, last, stages)
        declared = verilog[module]
        if [(it.name, it.is_input) for it in ports] != [(k, v[0]) for k, v in declared.items()]:
            raise BadInput(
                f"{name}: the ports of {module} are not those of the report: is it of this Verilog?"
            )
        ports = [it._replace(width=declared[it.name][1]) for it in ports]
        found.append(Module(module, behaviour, last, ports))
    if len(verilog) != len(found):
        raise BadInput(f"{name}: the Verilog has {len(verilog)} modules, the report {len(found)}")
    return found


# Words


def stage_words(time, stages, mode):
    """Where a cell is at a time."""
    last = len(stages) - 1
    if time <= last:
        return stages[time]
    behind = time - last
    return f"WB, cycle {behind} of waiting" if mode == "Tight" else f"the unit, cycle {behind}"


def enable_words(mode, time, stages):
    """When an enable is 1."""
    last = len(stages) - 1
    if time < last:
        return f"1 where a cell goes from {stages[time]} to {stages[time + 1]}"
    if mode == "Decoupled":
        if time == last:
            return "1 where a cell of this behaviour retires"
        return "1 where the unit is not frozen"
    return "1 where a cell of this behaviour is held in WB for its module"


def register_of(it):
    return it.kind.partition(".")[2]


def input_words(it):
    kind = kind_name(it.kind)
    if kind == "RdCustReg":
        return f"the newest value of custom register {register_of(it)}"
    if kind == "RdMem":
        return f"what is loaded from the address out{it.number}_a"
    return READ_WORDS[kind]


def output_words(it, letter):
    kind = kind_name(it.kind)
    if letter == "a":
        return "the address of the load" if kind == "RdMem" else "the address of the store"
    if letter == "v":
        if kind == "WrCustReg":
            return f"the value for custom register {register_of(it)}"
        return f"the value {WRITE_WORDS[kind]}"
    what = {
        "RdMem": "it loads",
        "WrMem": "it stores",
        "WrRD": "rd is written",
        "WrPC": "the pc is written",
        "WrCustReg": f"custom register {register_of(it)} is written",
    }
    return f"1 where {what[kind]}"


# The table and the YAML file


def cycles_text(count):
    return f"{count} cycle{'' if count == 1 else 's'}"


def mode_words(module, stages):
    last, behind = module.last, module.last - len(stages) + 1
    mode = module.behaviour.mode
    if mode == "Tight" and behind > 0:
        return f"Tight, waits {cycles_text(behind)} in WB"
    if mode == "Decoupled":
        return f"Decoupled, writes {cycles_text(behind)} behind its retirement"
    return f"{mode}, last time {last}"


def table_text(modules, stages):
    lines = []
    for module in modules:
        kinds = {it.number: it.kind for it in module.behaviour.operations}
        lines += [f"{module.name}: {mode_words(module, stages)}", ""]
        rows = [["Port", "Width", "Time", "Stage", "Operation", "Is"]]
        for it in module.ports:
            time = "" if it.time is None else str(it.time)
            stage = "" if it.time is None else stage_words(it.time, stages, module.behaviour.mode)
            kind = "" if it.operation is None else f"{it.operation} {kinds[it.operation]}"
            rows.append([it.name, str(it.width), time, stage, kind, it.words])
        widths = [max(len(row[at]) for row in rows) for at in range(len(rows[0]))]
        for row in rows:
            fields = [field.ljust(width) for field, width in zip(row, widths)]
            lines.append(f"  {'  '.join(fields)}".rstrip())
        lines.append("")
    return "\n".join(lines)


def yaml_port(port, indent):
    return f'{indent}- {{port: "{port.name}", width: {port.width}, time: {port.time}}}'


def yaml_text(modules, core):
    """The YAML file. All texts stand in quotes, since a name may be a word of YAML."""
    lines = [f'core: "{core}"', "modules:" if modules else "modules: []"]
    for module in modules:
        behaviour = module.behaviour
        lines += [
            f'  - module: "{module.name}"',
            f'    behaviour: "{behaviour.name}"',
            f'    mode: "{behaviour.mode}"',
            f"    last: {module.last}",
        ]
        enables = [it for it in module.ports if it.operation is None and it.time is not None]
        lines.append("    enables:" if enables else "    enables: []")
        lines += [
            f'      - {{port: "{it.name}", time: {it.time}, when: "{it.words}"}}' for it in enables
        ]
        with_ports = [
            it for it in behaviour.operations if kind_name(it.kind) in READS + WRITES
        ]
        lines.append("    operations:" if with_ports else "    operations: []")
        for it in with_ports:
            lines += [
                f"      - operation: {it.number}",
                f'        kind: "{kind_name(it.kind)}"',
            ]
            if register_of(it):
                lines.append(f"        register: {register_of(it)}")
            lines.append(f"        time: {it.time}")
            own = [port for port in module.ports if port.operation == it.number]
            for title, wanted in (("inputs", True), ("outputs", False)):
                part = [port for port in own if port.is_input == wanted]
                if part:
                    lines.append(f"        {title}:")
                    lines += [yaml_port(port, " " * 10) for port in part]
    return "\n".join(lines) + "\n"


# Commands


def read_modules(options):
    report = parse_report(lines_of(options.report), options.report)
    text = "".join(f"{line}\n" for line in lines_of(options.verilog))
    verilog = modules_of(text, options.verilog)
    return whole_modules(report, verilog, CORES[options.core], options.verilog)


def answer_of(options, *words):
    answer = run_program(options.ixt, words)
    if answer.status:
        raise BadInput(f"the program refused `{words[0]}`: {shown(refusal_of(answer))}")
    return answer.text


def run_bench(options):
    """The test bench of a program, and where it is asked for its simulation."""
    if options.simulate:
        find_icarus(options)
    files = [options.extension, options.sheet]
    report = parse_report(answer_of(options, "schedule", *files).splitlines(), "the report")
    text = answer_of(options, "build", *files)
    # (stages are words alone here, and no word is printed)
    modules = whole_modules(report, modules_of(text, "the Verilog"), CORES["five"], "the Verilog")
    listing = listing_of(answer_of(options, "check", options.extension), report, options.extension)
    start = answer_of(options, "seq", options.extension, options.image, 0)
    steps = answer_of(options, "seq", options.extension, options.image, options.steps)
    bench = bench_of(modules, listing, start, steps, options.stalls)
    if not options.simulate:
        write_output(options.output, f"{bench}{text}")
        return 0
    with tempfile.TemporaryDirectory() as place:
        (Path(place) / "bench.v").write_text(f"{bench}{text}", encoding="utf-8")
        simulation = compile_verilog(options, "bench", ["bench.v"], Path(place))
        told = simulate(options, simulation, [], Path(place))
    write_output(options.output, told)
    return 0 if told.endswith(", 0 faults\n") else DIFFERS


def parse_options():
    parser = argparse.ArgumentParser(
        description="The ports of the modules that `ixt build` prints: a table in words, a YAML "
        "file, and a test bench made from `ixt seq`.",
        epilog="Exit status: 0 done, 1 an input is refused or a tool is missing, 2 a wrong command "
        f"line, {DIFFERS} a simulated test bench has faults.",
    )
    commands = parser.add_subparsers(dest="command", required=True, metavar="COMMAND")
    for name, what in (("table", "the ports in words"), ("yaml", "the ports as YAML")):
        command = commands.add_parser(name, help=what)
        command.add_argument("report", help="the report, as `ixt schedule` writes it")
        command.add_argument("verilog", help="the Verilog, as `ixt build` writes it")
        command.add_argument(
            "--core", required=True, choices=sorted(CORES), help="the core of the datasheet"
        )
        add_output_option(command)
    command = commands.add_parser("bench", help="a test bench from a run of a program")
    for name, what in (("extension", "CoreDSL text"), ("sheet", "datasheet"), ("image", "program")):
        command.add_argument(name, help=f"the {what}")
    command.add_argument("steps", type=natural, help="the most instructions of the run")
    command.add_argument(
        "--stalls",
        metavar="N",
        type=natural,
        default=2,
        help="a use stays up to N cycles at each time (else 2)",
    )
    command.add_argument("--simulate", action="store_true", help="run it in Icarus Verilog")
    add_icarus_options(command)
    add_program_option(command)
    add_output_option(command)
    return parser.parse_args()


def main():
    options = parse_options()
    if options.command == "bench":
        return run_bench(options)
    modules = read_modules(options)
    if options.command == "table":
        write_output(options.output, table_text(modules, CORES[options.core]))
    else:
        write_output(options.output, yaml_text(modules, options.core))
    return 0


if __name__ == "__main__":
    finish(main)
