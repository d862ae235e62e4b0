#!/bin/sh
# Gives each module of a Verilog text to iverilog, verilator and yosys, where they are installed. No message is wanted.
# Use: tools/verilog_lint.sh FILE
# (for instance what `printf 'print sum\036' | crates/verilog_cases/out/verilog_cases` writes)
set -e
folder=$(mktemp -d)
trap 'rm -rf "$folder"' EXIT
awk -v folder="$folder" '/^module/ { n++ } { print > (folder "/module" n ".v") }' "$1"
for file in "$folder"/module*.v; do
    if command -v iverilog > /dev/null; then iverilog -g2005 -Wall -t null "$file"; fi
    if command -v verilator > /dev/null; then verilator --lint-only -Wno-fatal "$file"; fi
    if command -v yosys > /dev/null; then yosys -q -p "read_verilog $file; proc; check -assert"; fi
done
