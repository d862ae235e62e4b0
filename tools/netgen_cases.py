#!/usr/bin/env python3
"""Makes the cases `generate` of crates/net_cases.

Use: netgen_cases.py VECTORS [--first N] [--most-lives N]

Before the vectors stand the sum of two registers in given cycles, and the extensions of examples/ on the cores of three, four and five stages, and on a
slow one, with tokens whose inputs look random.
VECTORS is a file of JSON lines, plain or gzipped, a case a line: `name`, `files` with `e.core_desc` and `s.toml`, and `modules`, each with its
`name`, `inputs`, `outputs` and `lives`, cycles of the values of all inputs and of all outputs that are due. Of each group of names that differ
in their last number alone, the first N are taken.
"""
import argparse
import gzip
import json
import re

from case_files import END, TOP, replace

SLOW = "core = \"three\"\nperiod = 1000\n[delay]\nsub = 700\nge = 700\nadd = 600\nmul = 900\n"
TOKENS = 24
# A store has one time, in which its address is a product and a sum: on the slow core these pass the period.
NO_SCHEDULE = [("store-product", "slow")]


def text_of(content):
    """A text, or one that is given in parts."""
    if isinstance(content, list):
        return "".join(part if isinstance(part, str) else part["repeat"] * part["times"] for part in content)
    return content


def files_of(case):
    """The extension and the datasheet, by the words of the command."""
    return [text_of(case["files"].get(word)) for word in case["words"][1:3]]


def head(name, inputs, outputs):
    def ports(list):
        return "".join(f" {port}:{width}" for port, width in list)
    return f"module {name}{ports(inputs)} ->{ports(outputs)}\n"


def lives_of(module, most):
    put, due = "", ""
    for life in module["lives"][:most]:
        put += "life\n"
        due += "life\n"
        for inputs, outputs in life:
            signs = "".join("-" if word == "-" else "*" for word in outputs.split())
            put += f"{inputs} {signs}\n"
            due += "".join(f"{word} " for word in outputs.split()) + "\n"
    return put, due


def chosen(cases, first):
    counts, taken = {}, []
    for case in sorted(cases, key=lambda case: case["name"]):
        if case["status"] != 0 or not case.get("modules"):
            continue
        group = case["name"].rpartition("-")[0]
        counts[group] = counts.get(group, 0) + 1
        if counts[group] <= first:
            taken.append(case)
    return taken


def behaviours(text):
    """The names of the instructions and then of the always-blocks of a worked extension."""
    text = re.sub("//.*", "", text)
    before, _, blocks = text.partition("always {")
    return re.findall(r"(\w+)\s*{\s*encoding", before) + re.findall(r"(\w+)\s*{", blocks)


def worked():
    """Each worked extension on each core."""
    for path in sorted((TOP / "examples").glob("*.core_desc")):
        text = path.read_text()
        for seed, sheet in enumerate(["three", "four", "five", "slow"]):
            toml = SLOW if sheet == "slow" else (TOP / "examples" / f"{sheet}.toml").read_text()
            due = "".join(f"ixt_{name} {TOKENS} tokens\n" for name in behaviours(text))
            if (path.stem, sheet) in NO_SCHEDULE:
                due = "NoSchedule\n"
            yield f"{text}\x1f{toml}\x1ftokens {TOKENS} {seed}", due + END


# The sum of two registers on five stages: of 5 and 7 with the enable and then zeros; the same without it; and then two cycles held with other values.
SUMS = [
    [("1 5 7", "- -"), ("0 0 0", "c 1")],
    [("0 5 7", "- -"), ("0 0 0", "0 1")],
    [("1 5 7", "- -"), ("0 1 1", "c 1"), ("0 8 9", "c 1")],
]


def sums():
    text = (TOP / "examples" / "wide-add.core_desc").read_text()
    toml = (TOP / "examples" / "five.toml").read_text()
    put, due = lives_of({"lives": SUMS}, len(SUMS))
    ports = head("ixt_addx", [("en1", 1), ("in0", 32), ("in1", 32)], [("out4_v", 32), ("out4_c", 1)])
    return f"{text}\x1f{toml}\x1f{put}", f"{ports}{due}{END}"


def given_cycles(case, most):
    """A case of the vectors: its modules in the cycles that are given, so many lives at most."""
    text, sheet = files_of(case)
    modules = case["modules"]
    lives = [lives_of(module, most) for module in modules]
    heads = (head(module["name"], module["inputs"], module["outputs"]) for module in modules)
    due = "".join(line + due for line, (_, due) in zip(heads, lives))
    return f"{text}\x1f{sheet}\x1f" + "\x1d".join(put for put, _ in lives), due + END


def main():
    parser = argparse.ArgumentParser()
    parser.add_argument("vectors")
    parser.add_argument("--first", type=int, default=4)
    parser.add_argument("--most-lives", type=int, default=2)
    given = parser.parse_args()
    opened = gzip.open(given.vectors, "rt") if given.vectors.endswith(".gz") else open(given.vectors)
    with opened as file:
        cases = chosen([json.loads(line) for line in file], given.first)
    made = [sums(), *worked(), *(given_cycles(case, given.most_lives) for case in cases)]
    replace("net_cases", "generate", made, answer_end=END)


if __name__ == "__main__":
    main()
