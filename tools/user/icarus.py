"""Icarus Verilog for the scripts of this folder: finding it, compiling, simulating."""
import shutil
import subprocess
from pathlib import Path

from ixt_texts import BadInput

MOST_SECONDS = 120


def add_icarus_options(parser):
    parser.add_argument(
        "--iverilog", metavar="PATH", default="iverilog", help="the compiler of Icarus Verilog"
    )
    parser.add_argument("--vvp", metavar="PATH", default="vvp", help="its simulator")


def find_icarus(options):
    """Puts the places of both programs into the options."""
    options.iverilog = find_tool(options.iverilog)
    options.vvp = find_tool(options.vvp)


def find_tool(name):
    found = shutil.which(name)
    if found is None:
        raise BadInput(
            f"{name} was not found: install Icarus Verilog (the package `iverilog`), "
            "or name its programs with --iverilog and --vvp"
        )
    return str(Path(found).absolute())


def compile_verilog(options, top, names, room):
    """The simulation that files of the folder `room` make."""
    output = room / "simulation"
    words = [options.iverilog, "-g2005", "-s", top, "-o", str(output), *names]
    call(words, room)
    return output


def simulate(options, simulation, words, room):
    """What a simulation prints, run in the folder `room` with `+WORD` for each of the words."""
    return call([options.vvp, "-n", str(simulation), *(f"+{word}" for word in words)], room)


def call(words, room):
    """What a program prints; BadInput with its first line where it fails."""
    name = Path(words[0]).name
    try:
        done = subprocess.run(
            words,
            cwd=room,
            stdout=subprocess.PIPE,
            stderr=subprocess.STDOUT,
            stdin=subprocess.DEVNULL,
            timeout=MOST_SECONDS,
            check=False,
        )
    except subprocess.TimeoutExpired as fault:
        raise BadInput(f"{name} does not end within {MOST_SECONDS} seconds") from fault
    except OSError as fault:
        raise BadInput(f"{words[0]} cannot be run: {fault.strerror}") from fault
    text = done.stdout.decode("utf-8", "replace")
    if done.returncode:
        said = text.strip().splitlines() or ["no message"]
        raise BadInput(f"{name} failed: {said[0]}")
    return text
