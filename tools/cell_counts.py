#!/usr/bin/env python3
"""Counts the cells of modules beside what Yosys keeps of them: cell_counts.py FILE ..

FILE is a text of modules, as `ixt build` prints it. Of each module the cells are counted that compute (constants, copies, ranges of bits and
concatenations are wires) and the registers; beside them stand the cells that Yosys has of the same module after `proc; opt`, those that compute and the
registers, and the quotient of both sums.
"""
import json
import pathlib
import re
import subprocess
import sys
import tempfile

HEAD = re.compile(r"module (\w+)\(")
ASSIGN = re.compile(r"  assign (\w+) = (.*);")
WIRE = re.compile(r"(\d+'h[0-9a-f]+|\w+(\[\d+:\d+\])?|\{.*\})$")


def counted(text):
    """For each module: cells that compute, and registers."""
    counts, name = {}, None
    for line in text.splitlines():
        if head := HEAD.match(line):
            name = head[1]
            counts[name] = [0, 0]
        elif assign := ASSIGN.match(line):
            counts[name][0] += not WIRE.match(assign[2])
        elif line.startswith("  reg "):
            counts[name][1] += 1
    return counts


def kept(path):
    """The same of what Yosys keeps."""
    with tempfile.TemporaryDirectory() as folder:
        out = pathlib.Path(folder) / "kept.json"
        script = f"read_verilog {path}; proc; opt; write_json {out}"
        subprocess.run(["yosys", "-q", "-p", script], check=True)
        modules = json.loads(out.read_text())["modules"]
    counts = {}
    for name, module in modules.items():
        types = [cell["type"] for cell in module["cells"].values()]
        registers = sum("dff" in kind for kind in types)
        counts[name] = [len(types) - registers, registers]
    return counts


def main():
    worst = 0.0
    for path in sys.argv[1:]:
        ours, theirs = counted(pathlib.Path(path).read_text()), kept(path)
        for name, (cells, registers) in ours.items():
            other_cells, other_registers = theirs[name]
            both, others = cells + registers, other_cells + other_registers
            quotient = both / others if others else float(both > 0)
            worst = max(worst, quotient)
            print(f"{path} {name}: {cells} cells, {registers} registers; Yosys {other_cells}, {other_registers}; {quotient:.2f}")
    print(f"at most {worst:.2f}")


if __name__ == "__main__":
    main()
