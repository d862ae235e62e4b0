#!/usr/bin/env python3
"""Makes the cases `graph` of crates/behaviour_cases.

Use: graph_cases.py VECTORS [--first N] [NAME ...]

VECTORS is a file of JSON lines, plain or gzipped, a case a line: `name`, `ext` (the text of an extension), `tables` and `behaviours`,
each with its `name`, and `ops` or a `refusal`. Taken are the cases with these names and, of each group of names that differ in
their last number alone, the first N; without either, all. Before them stand the texts of examples/ whose graphs, worked out by
hand, lie in tools/graphs/.
"""
import argparse
import gzip
import json

from case_files import TOP, replace


def lines_of(case):
    for behaviour in case["behaviours"]:
        if "refusal" in behaviour:
            yield f"graph {behaviour['name']} {behaviour['refusal']}"
            continue
        yield f"graph {behaviour['name']}"
        for number, op in enumerate(behaviour["ops"]):
            words = [str(number), op["kind"], *map(str, op["args"]), "->", op["type"]]
            if op.get("spawned"):
                words.append("spawned")
            yield " ".join(words)
        for number, table in enumerate(case["tables"]):
            yield " ".join(["table", str(number), *map(str, table)])


def chosen(cases, names, first):
    if not names and not first:
        return cases
    counts, taken = {}, []
    for case in sorted(cases, key=lambda case: case["name"]):
        group = case["name"].rpartition("-")[0]
        counts[group] = counts.get(group, 0) + 1
        if counts[group] <= first or case["name"] in names:
            taken.append(case)
    return taken


def worked():
    """The texts whose graphs were worked out by hand."""
    for due in sorted((TOP / "tools" / "graphs").glob("*.graphs")):
        yield (TOP / "examples" / f"{due.stem}.core_desc").read_text(), due.read_text()


def main():
    parser = argparse.ArgumentParser()
    parser.add_argument("vectors")
    parser.add_argument("names", nargs="*")
    parser.add_argument("--first", type=int, default=0)
    given = parser.parse_intermixed_args()
    opened = gzip.open(given.vectors, "rt") if given.vectors.endswith(".gz") else open(given.vectors)
    with opened as file:
        cases = chosen([json.loads(line) for line in file], given.names, given.first)
    made = ((case["ext"], "".join(f"{line}\n" for line in lines_of(case))) for case in cases)
    replace("behaviour_cases", "graph", [*worked(), *made])


main()
