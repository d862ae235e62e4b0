#!/usr/bin/env python3
"""Compares the dump of `ixt wave` with a simulation of the modules that `ixt build` prints.

The modules are simulated in Icarus Verilog with the inputs that the dump shows, row by row; each
output of each row has to be the dump's. Without files all examples run on all cores. With
--vcd2fst each dump is also read by the tool of that name of the package `gtkwave`, which must have
no message.
"""
import argparse
import re
import shutil
import subprocess
import tempfile
from dataclasses import dataclass, field
from pathlib import Path

from icarus import add_icarus_options, compile_verilog, find_icarus, simulate
from ixt_texts import (
    ROOT,
    BadInput,
    add_program_option,
    finish,
    natural,
    refusal_of,
    run_program,
    shown,
)

DIFFERS = 3
EXAMPLES = ROOT / "examples"
CORES = ["three", "four", "five", "three_f", "five_f"]
WAITS = EXAMPLES / "some.waits"
MOST_ROWS = 200_000
TOP = "wave_bench"
REGISTER = re.compile(r"^( *reg (?:\[\d+:0\] )?\w+);", re.MULTILINE)


@dataclass
class Port:
    """A port of a module: its code in the dump, its name and its width in bits."""

    code: str
    name: str
    width: int

    @property
    def is_output(self):
        return self.name.startswith("out")


@dataclass
class Dump:
    """The modules of a dump with their ports, and the values of all ports row by row as bits."""

    modules: list = field(default_factory=list)
    rows: list = field(default_factory=list)

    def ports(self):
        return [port for _, ports in self.modules for port in ports]


def read_dump(text):
    """A dump as `ixt wave` writes it; BadInput where a line has another form."""
    dump = Dump()
    lines = iter(enumerate(text.splitlines(), 1))
    for number, line in lines:
        match line.split():
            case ["$timescale", "1ns", "$end"] | ["$upscope", "$end"]:
                pass
            case ["$scope", "module", name, "$end"]:
                dump.modules.append((name, []))
            case ["$var", "wire", width, code, name, "$end"] if dump.modules and width.isdigit():
                dump.modules[-1][1].append(Port(code, name, int(width)))
            case ["$enddefinitions", "$end"]:
                break
            case _:
                raise BadInput(f"line {number} of the dump: {shown(line)}")
    widths = {port.code: port.width for port in dump.ports()}
    values = {}
    for number, line in lines:
        if line == f"#{len(dump.rows)}":
            if dump.rows and values.keys() != widths.keys():
                raise BadInput(f"line {number} of the dump: the row before lacks a port")
            dump.rows.append(values := dict(values))
            continue
        bits, code = line[1:].split(" ") if line.startswith("b") else (line[:1], line[1:])
        if not dump.rows or len(bits) != widths.get(code) or not set(bits) <= {"0", "1"}:
            raise BadInput(f"line {number} of the dump: {shown(line)}")
        if values.get(code) == bits:
            raise BadInput(f"line {number} of the dump: {code} has this value already")
        values[code] = bits
    return dump


# The simulation


def bench_of(dump):
    """A test bench that drives all inputs from a file of a row a line and prints all outputs."""
    inputs = [it for it in dump.ports() if not it.is_output]
    outputs = [it for it in dump.ports() if it.is_output]
    width = sum(it.width for it in inputs)
    lines = [f"module {TOP};", "  reg clk = 0;", "  integer row;"]
    lines.append(f"  reg [{width - 1}:0] rows [0:{len(dump.rows) - 1}];")
    lines.append(f"  reg [{width - 1}:0] driven;")
    low = width
    for it in inputs:
        low -= it.width
        lines.append(f"  wire [{it.width - 1}:0] {it.code} = driven[{low + it.width - 1}:{low}];")
    lines += [f"  wire [{it.width - 1}:0] {it.code};" for it in outputs]
    for number, (name, ports) in enumerate(dump.modules):
        joined = ", ".join([".clk(clk)"] + [f".{it.name}({it.code})" for it in ports])
        lines.append(f"  {name} module_{number} ({joined});")
    shows = "{" + ", ".join(it.code for it in outputs) + "}"
    lines += [
        "  initial begin",
        '    $readmemb("rows.txt", rows);',
        f"    for (row = 0; row < {len(dump.rows)}; row = row + 1) begin",
        "      driven = rows[row];",
        "      #1;",
        f'      $display("%b", {shows});' if outputs else '      $display("");',
        "      clk = 1;",
        "      #1 clk = 0;",
        "    end",
        "  end",
        "endmodule",
    ]
    rows = ["".join(row[it.code] for it in inputs) for row in dump.rows]
    return "\n".join(lines) + "\n", "\n".join(rows) + "\n"


def differences(options, dump, verilog, room):
    """What the simulation shows otherwise, a line each."""
    # (a register of Verilog is unknown at first; in a machine all are 0 before the first row)
    (room / "modules.v").write_text(REGISTER.sub(r"\1 = 0;", verilog), encoding="utf-8")
    bench, rows = bench_of(dump)
    (room / "bench.v").write_text(bench, encoding="utf-8")
    (room / "rows.txt").write_text(rows, encoding="utf-8")
    simulation = compile_verilog(options, TOP, ["modules.v", "bench.v"], room)
    said = simulate(options, simulation, [], room).splitlines()
    if len(said) != len(dump.rows):
        return [f"{len(dump.rows)} rows in the dump, {len(said)} in the simulation"]
    outputs = [it for it in dump.ports() if it.is_output]
    found = []
    for number, (row, line) in enumerate(zip(dump.rows, said)):
        at = 0
        for it in outputs:
            got = line[at : at + it.width]
            at += it.width
            if got != row[it.code]:
                found.append(f"row {number}, {it.name} ({it.code}): {row[it.code]}, {got}")
    return found


def read_by_gtkwave(options, text, room):
    """What the reader of the package `gtkwave` says of a dump."""
    (room / "dump.vcd").write_text(text, encoding="utf-8")
    words = [options.vcd2fst, "dump.vcd", "dump.fst"]
    done = subprocess.run(words, cwd=room, capture_output=True, text=True, check=False)
    said = (done.stdout + done.stderr).strip()
    return [f"vcd2fst ends with {done.returncode}: {said}"] if said or done.returncode else []


# Runs


def compare(options, words, room):
    """Compares one dump, and says what came of it; None where the program refuses the files."""
    extension, sheet, image, waits, cycles = words
    dumped = run_program(options.ixt, ["wave", *words])
    if refusal_of(dumped):
        print(f"{image.name}, {sheet.name}: {refusal_of(dumped)}")
        return None
    built = run_program(options.ixt, ["build", extension, sheet])
    ran = run_program(options.ixt, ["run", *words])
    dump = read_dump(dumped.text)
    found = []
    rows = sum(1 for line in ran.text.splitlines() if line[:1].isdigit())
    if rows != len(dump.rows):
        found.append(f"{len(dump.rows)} rows in the dump, {rows} in the run")
    if dump.rows and dump.ports():
        found += differences(options, dump, built.text, room)
    if options.vcd2fst:
        found += read_by_gtkwave(options, dumped.text, room)
    outcome = "the same" if not found else f"{len(found)} differences"
    print(f"{image.name}, {sheet.name}, {waits.name}: {len(dump.rows)} rows, {outcome}")
    for line in found[: options.most]:
        print(f"  {line}")
    return not found


def examples():
    """The extension and the image of each example."""
    for image in sorted(EXAMPLES.glob("*.hex")):
        extension = image.with_suffix(".core_desc")
        if extension.exists():
            yield extension, image


def all_runs(options, room):
    """The words of all runs."""
    if options.files:
        return [(*options.files, options.rows)]
    none = room / "none.waits"
    none.write_text("", encoding="utf-8")
    return [
        (extension, EXAMPLES / f"{core}.toml", image, waits, options.rows)
        for extension, image in examples()
        for core in CORES
        for waits in (none, WAITS)
    ]


def parse_options():
    parser = argparse.ArgumentParser(description=__doc__, formatter_class=argparse.RawTextHelpFormatter)
    parser.add_argument("files", metavar="EXT SHEET IMAGE WAITS", nargs="*", type=Path, help="else all examples")
    parser.add_argument("--rows", metavar="N", type=natural, default=400, help="the most rows (else 400)")
    parser.add_argument("--most", metavar="N", type=natural, default=5, help="differences shown (else 5)")
    parser.add_argument("--vcd2fst", metavar="PATH", nargs="?", const="vcd2fst", help="read each dump with this too")
    add_icarus_options(parser)
    add_program_option(parser)
    options = parser.parse_args()
    if len(options.files) not in (0, 4):
        parser.error("EXT, SHEET, IMAGE and WAITS go together")
    if options.rows > MOST_ROWS:
        parser.error(f"--rows goes up to {MOST_ROWS}")
    if options.vcd2fst and shutil.which(options.vcd2fst) is None:
        raise BadInput(f"{options.vcd2fst} was not found: install the package `gtkwave`")
    return options


def main():
    options = parse_options()
    find_icarus(options)
    with tempfile.TemporaryDirectory() as place:
        room = Path(place)
        results = [compare(options, words, room) for words in all_runs(options, room)]
    return 0 if all(it is not False for it in results) else DIFFERS


if __name__ == "__main__":
    finish(main)
