#!/usr/bin/env python3
"""Steps the modules of a Verilog text in iverilog beside our simulator, on the same inputs, and tells each difference.

Use: tools/verilog_steps.py VERILOG_CASES FILE CYCLES
VERILOG_CASES is the program of the crate verilog_cases; `rt run` in its folder builds it.
"""
import os
import re
import subprocess
import sys
import tempfile


def modules_of(text):
    """The modules of a text by name: their text, ports with widths in order, and registers."""
    modules = {}
    for whole in re.findall(r"module .*?endmodule\n", text, re.S):
        name = re.match(r"module (\w+)", whole).group(1)
        ports = [(kind, word, int(high) + 1) for kind, high, word in re.findall(r"^  (input|output) \[(\d+):0\] (\w+);", whole, re.M)]
        modules[name] = (whole, ports, re.findall(r"^  reg \[\d+:0\] (\w+);", whole, re.M))
    return modules


def bench_of(name, module, lines):
    """A test bench that gives a module the inputs of the lines and compares its outputs."""
    whole, ports, registers = module
    rows = [whole, "module bench;", "  reg clk = 0;"]
    for kind, word, width in ports:
        rows.append(f"  {'reg' if kind == 'input' else 'wire'} [{width - 1}:0] {word};")
    wires = "".join(f", .{word}({word})" for _, word, _ in ports)
    rows.append(f"  {name} dut(.clk(clk){wires});")
    rows.append("  initial begin")
    rows += [f"    dut.{register} = 0;" for register in registers]
    widths = {word: (kind, width) for kind, word, width in ports}
    for number, line in enumerate(lines):
        values = [value.split("=") for value in line.split()]
        for word, value in values:
            if widths[word][0] == "input":
                rows.append(f"    {word} = {widths[word][1]}'h{value};")
        rows.append("    #1;")
        for word, value in values:
            kind, width = widths[word]
            if kind == "output":
                rows.append(f"    if ({word} !== {width}'h{value}) $display(\"difference: {name} cycle {number} {word} %h, and not {value}\", {word});")
        rows.append("    clk = 1; #1; clk = 0; #1;")
    return "\n".join(rows + ["  end", "endmodule", ""])


def run(bench):
    with tempfile.TemporaryDirectory() as folder:
        source, program = os.path.join(folder, "bench.v"), os.path.join(folder, "bench")
        with open(source, "w") as file:
            file.write(bench)
        subprocess.run(["iverilog", "-g2005", "-s", "bench", "-o", program, source], check=True)
        return subprocess.run([program], capture_output=True, text=True, check=True).stdout


def main():
    steps, path, cycles = sys.argv[1:4]
    with open(path) as file:
        text = file.read()
    case = f"step {cycles}\n{text}\x1e"
    printed = subprocess.run([steps], input=case, capture_output=True, text=True, check=True).stdout
    modules = modules_of(text)
    differences = 0
    parts = re.split(r"^module (\w+)\n", printed, flags=re.M)[1:]
    for name, lines in zip(parts[::2], parts[1::2]):
        told = run(bench_of(name, modules[name], lines.splitlines()))
        differences += told.count("difference")
        sys.stdout.write(told)
    print(f"{len(parts) // 2} modules of {len(modules)}, {cycles} cycles each, {differences} differences")
    sys.exit(1 if differences or len(parts) // 2 != len(modules) else 0)


main()
