#!/usr/bin/env python3
"""Checks SVG pictures of tools/user: check_pictures.py FILE.. ends with 0 where each one is XML,
fits on a page, and has no text over another text or past its edge. The widths of texts are those of
a fixed-width font.
"""
import sys
import xml.etree.ElementTree as tree
from pathlib import Path

sys.path.insert(0, str(Path(__file__).resolve().parent / "user"))
from ixt_svg import LYING, STANDING  # noqa: E402

NAME = "{http://www.w3.org/2000/svg}"
ADVANCE = 0.602  # the width of a character of a usual fixed-width font
SHIFT = {"start": 0, "middle": 0.5, "end": 1}


def box_of(text):
    """The box of a text's letters: left, top, right, bottom."""
    words, size = (text.text or "").strip(" "), float(text.get("font-size"))
    wide = len(words) * size * ADVANCE
    left = float(text.get("x")) - wide * SHIFT[text.get("text-anchor", "start")]
    base = float(text.get("y"))
    return left, base - 0.75 * size, left + wide, base + 0.2 * size


def faults_of(path):
    try:
        root = tree.parse(path).getroot()
    except (OSError, tree.ParseError) as fault:
        return [str(fault)]
    width, height = float(root.get("width")), float(root.get("height"))
    faults = []
    if not any(width <= page[0] and height <= page[1] for page in (LYING, STANDING)):
        faults.append(f"{width} by {height} is more than a page")
    texts = [it for it in root.iter(NAME + "text") if (it.text or "").strip(" ")]
    boxes = [(box_of(it), it.text) for it in texts]
    for box, words in boxes:
        if box[0] < 0 or box[1] < 0 or box[2] > width or box[3] > height:
            faults.append(f"`{words}` is past the edge")
    return faults + overlaps(sorted(boxes))


def overlaps(boxes):
    """Texts that lie over each other; the boxes are sorted by their left edges."""
    faults = []
    for at, (box, words) in enumerate(boxes):
        for other, more in boxes[at + 1 :]:
            if other[0] >= box[2]:
                break
            if other[1] < box[3] and box[1] < other[3]:
                faults.append(f"`{words}` and `{more}` lie over each other")
    return faults


def main():
    failed = False
    for path in sys.argv[1:]:
        for fault in faults_of(path):
            print(f"{path}: {fault}", file=sys.stderr)
            failed = True
    return int(failed)


if __name__ == "__main__":
    sys.exit(main())
