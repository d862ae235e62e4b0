#!/usr/bin/env python3
"""The cycles that the instructions of extensions win in C programs, as a table.

A program includes the header of one extension, `#include "NAME.h"` for NAME.core_desc, or has plain
C in place of it where PLAIN is defined. It is compiled both ways, and the host's compiler compiles
the plain way. Each image runs one instruction at a time and on each core, and each run must end
with the host's result.
"""
import argparse
import re
import subprocess
import sys
import tempfile
from pathlib import Path
from typing import NamedTuple

from c_to_image import add_compiler_options, found_compiler, make_image
from ixt_texts import (
    ROOT,
    BadInput,
    add_output_option,
    add_program_option,
    finish,
    lines_of,
    refusal_of,
    run_program,
    shown,
    write_output,
)

EXAMPLES = ROOT / "examples"
SHEETS = [EXAMPLES / f"{name}.toml" for name in ("three", "four", "five")]
MOST_CYCLES = 200_000
SECONDS = 20  # (that a program of the host may take)
INCLUDE = re.compile(r'\s*#\s*include\s*"([^"/]+)\.h"', re.ASCII)
WRAPPER = """#include <stdio.h>
int program_main(void);
int main(void) { return printf("%08x", (unsigned)program_main()) != 8; }
"""


class Line(NamedTuple):
    """A line of the table: the cycles of a program on a core, in plain C and with the extension."""

    program: str
    extension: str
    core: str
    plain: int
    extended: int


def extension_of(source, folder):
    """The extension whose header a source includes."""
    names = [form[1] for form in map(INCLUDE.match, lines_of(source)) if form]
    found = [it for it in (folder / f"{name}.core_desc" for name in names) if it.is_file()]
    if len(found) != 1:
        raise BadInput(
            f"{source}: it includes the headers of {len(found)} extensions of {folder}: "
            'write one #include "NAME.h", where NAME.core_desc stands there'
        )
    return found[0]


# Running


def host_result(options, source):
    """What `main` gives when the host's compiler made the program."""
    compiler = found_compiler(options.host_cc, "gcc", "--host-cc")
    with tempfile.TemporaryDirectory() as room:
        wrapper, made = Path(room) / "wrapper.c", Path(room) / "program"
        wrapper.write_text(WRAPPER, encoding="utf-8")
        part = Path(room) / "part.o"
        first = [compiler, "-O1", "-DPLAIN", "-Dmain=program_main", "-c", source, "-o", part]
        for words in (first, [compiler, wrapper, part, "-o", made]):
            done = subprocess.run(words, stderr=subprocess.PIPE, check=False)
            if done.returncode:
                sys.stderr.write(done.stderr.decode("utf-8", "replace"))
                raise BadInput(f"{source}: the host's compiler refused it")
        try:
            done = subprocess.run(
                [made],
                stdout=subprocess.PIPE,
                stdin=subprocess.DEVNULL,
                timeout=SECONDS,
                check=False,
            )
        except subprocess.TimeoutExpired as fault:
            raise BadInput(f"{source}: on the host it runs for over {SECONDS} seconds") from fault
    if done.returncode:
        raise BadInput(f"{source}: on the host it ends with the status {done.returncode}")
    return done.stdout.decode("ascii")


ROW = re.compile(r"^(\d+) .* stop (\w+)$|^stop (\w+)$", re.ASCII | re.MULTILINE)
RESULT = re.compile(r"^x10 ([0-9a-f]{8})$", re.ASCII | re.MULTILINE)


def run_image(options, words, what):
    """The last row's number (None for steps) and the result of a run, which must end at a break."""
    answer = run_program(options.ixt, words)
    if answer.status:
        raise BadInput(f"{what}: the program refused it: {shown(refusal_of(answer))}")
    rows, _, state = answer.text.rpartition("\nstate\n")
    stop = ROW.search(rows[max(0, len(rows) - 1000) :])
    name = stop and (stop[2] or stop[3])
    if name != "Ebreak":
        end = f"stops by {name}" if name else f"goes on after {MOST_CYCLES} cycles"
        raise BadInput(f"{what}: it {end}, and does not come to its end")
    result = RESULT.search(state)
    return stop[1] and int(stop[1]), result[1] if result else "00000000"


def check_result(got, wanted, what):
    if got != wanted:
        raise BadInput(f"{what}: the result is {got}, and on the host it is {wanted}")


def cycles_of(options, source, extension, words, wanted):
    """The cycles of a program on each core, compiled with further words."""
    cycles = []
    with tempfile.TemporaryDirectory() as room:
        image, waits = Path(room) / "program.hex", Path(room) / "none.waits"
        waits.write_text("", encoding="utf-8")
        write_output(image, make_image(options, [source], extension, words))
        way = "plain C" if words else f"with {extension.stem}"
        steps = f"{source}, {way}, one instruction at a time"
        _, result = run_image(options, ["seq", extension, image, MOST_CYCLES], steps)
        check_result(result, wanted, steps)
        for sheet in options.sheets:
            what = f"{source}, {way}, on {sheet}"
            last, result = run_image(
                options, ["run", extension, sheet, image, waits, MOST_CYCLES], what
            )
            check_result(result, wanted, what)
            cycles.append(last + 1)
    return cycles


def lines_of_program(options, source):
    extension = extension_of(source, options.extensions)
    wanted = host_result(options, source)
    plain = cycles_of(options, source, extension, ["-DPLAIN"], wanted)
    extended = cycles_of(options, source, extension, [], wanted)
    return [
        Line(Path(source).name, extension.stem, Path(sheet).stem, *pair)
        for sheet, *pair in zip(options.sheets, plain, extended)
    ]


# The table


def compiler_line(options):
    done = subprocess.run(
        [found_compiler(options.cc), "-dumpfullversion"], stdout=subprocess.PIPE, check=False
    )
    version = done.stdout.decode("utf-8", "replace").strip()
    return f"Cycles with {Path(options.cc).name} {version} at -O{options.level}:"


def table_text(options, lines):
    rows = [
        compiler_line(options),
        "",
        "| Program | Extension | Core | Plain C | With it | Won |",
        "|---|---|---|--:|--:|--:|",
    ]
    for it in lines:
        won = round(100 * (it.plain - it.extended) / it.plain)
        rows.append(
            f"| `{it.program}` | `{it.extension}` | {it.core} "
            f"| {it.plain} | {it.extended} | {won}% |"
        )
    return "\n".join(rows) + "\n"


def check_document(path, text):
    """Whether a document has the table; that of another compiler is not compared."""
    document = "\n".join(lines_of(path)) + "\n"
    head = text.partition("\n")[0]
    if head not in document:
        print(f"{path} has no line `{head}`, so its table is not compared")
    elif text not in document:
        raise BadInput(f"{path}: its table is another one than that of these runs")
    else:
        print(f"{path} has the table of these runs")


def parsed():
    parser = argparse.ArgumentParser(
        description="Compiles C programs with an extension's instructions and in plain C, runs "
        "them on cores, compares the results with those of the host's compiler, and writes the "
        "cycles as a table.",
        epilog="Exit status: 0 done, 1 an input is refused or a result is wrong, 2 a wrong command "
        "line. Example: tools/user/c_cycles.py examples/c/hash.c",
    )
    parser.add_argument(
        "sources", nargs="*", metavar="SOURCE", help="C programs (else those of examples/c)"
    )
    parser.add_argument(
        "--extensions", metavar="FOLDER", type=Path, default=EXAMPLES, help="else examples"
    )
    parser.add_argument(
        "--sheets", metavar="SHEET", nargs="+", default=SHEETS, help="else those of the three cores"
    )
    parser.add_argument("--host-cc", metavar="PATH", default="gcc", help="else gcc")
    parser.add_argument(
        "--check", metavar="FILE", help="compare the table with that in a document instead"
    )
    add_compiler_options(parser)
    add_program_option(parser)
    add_output_option(parser)
    options = parser.parse_args()
    options.elf = None
    options.sources = options.sources or sorted(map(str, (EXAMPLES / "c").glob("*.c")))
    return options


def main():
    options = parsed()
    found_compiler(options.cc)
    lines = [line for source in options.sources for line in lines_of_program(options, source)]
    text = table_text(options, lines)
    if options.check:
        check_document(options.check, text)
    else:
        write_output(options.output, text)


if __name__ == "__main__":
    finish(main)
