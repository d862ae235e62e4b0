#!/usr/bin/env python3
"""The commands of docs/TUTORIAL.md that call the scripts of tools/user: tutorial_scripts.py files
FOLDER writes the files of the page into a folder; tutorial_scripts.py check PROGRAM runs these
commands on them, and ends with 0 where each one prints what stands behind it.
"""
import os
import re
import shutil
import subprocess
import sys
import tempfile
from pathlib import Path

ROOT = Path(__file__).resolve().parent.parent
END = "\x1e"


def write_files(folder):
    """The files of the tutorial, which stand in the cases of its commands."""
    for part in (ROOT / "tools/commands/tutorial.cases").read_text(encoding="utf-8").split(END):
        if part.startswith("file "):
            head, _, text = part.partition("\n")
            (folder / head.removeprefix("file ")).write_text(text, encoding="utf-8")


def commands():
    """Each command of the page that calls a script, and what stands behind it."""
    page = (ROOT / "docs/TUTORIAL.md").read_text(encoding="utf-8")
    # a line that ends in a backslash goes on with the next one
    for command, output in re.findall(
        r"^```\n\$ ((?:[^\n]*\\\n)*[^\n]*)\n(.*?)^```$", page, re.MULTILINE | re.DOTALL
    ):
        if "tools/user/" in command:
            yield command, output


def check(program):
    failed, count = 0, 0
    around = os.environ | {"IXT": str(Path(program).resolve())}
    with tempfile.TemporaryDirectory() as room:
        folder = Path(room)
        write_files(folder)
        launcher = folder / "ixt"
        launcher.write_text('#!/bin/sh\nexec "$IXT" "$@"\n', encoding="utf-8")
        launcher.chmod(0o755)
        (folder / "tools").symlink_to(ROOT / "tools")
        (folder / "examples").symlink_to(ROOT / "examples")
        for command, output in commands():
            if "delays_from_yosys" in command and not shutil.which("yosys"):
                print(f"not run, since yosys is missing: {command}")
                continue
            if "explore" in command and not shutil.which("parallel"):
                print(f"not run, since GNU parallel is missing: {command}")
                continue
            if "rtl_trace" in command and not shutil.which("iverilog"):
                print(f"not run, since Icarus Verilog is missing: {command}")
                continue
            done = subprocess.run(
                ["sh", "-c", command], cwd=folder, env=around, stdout=subprocess.PIPE, check=False
            )
            count += 1
            if done.stdout.decode("utf-8", "replace") != output:
                failed += 1
                print(
                    f"{command}\nprints\n{done.stdout.decode('utf-8', 'replace')}", file=sys.stderr
                )
    if not count:
        print("docs/TUTORIAL.md has no command that calls a script", file=sys.stderr)
    return int(failed > 0 or count == 0)


def main():
    if len(sys.argv) != 3 or sys.argv[1] not in ("files", "check"):
        print(__doc__, file=sys.stderr)
        return 2
    if sys.argv[1] == "check":
        return check(sys.argv[2])
    Path(sys.argv[2]).mkdir(parents=True, exist_ok=True)
    write_files(Path(sys.argv[2]))
    return 0


if __name__ == "__main__":
    sys.exit(main())
