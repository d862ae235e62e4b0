"""What the makers of cases share.

A program of cases reads `stdin`, cases that are each ended by a byte 30 and begin with a word, and
writes `stdout`. A maker writes the cases of one word anew, where those of the word stood, and
leaves the others as they are.
"""
import pathlib
import re

TOP = pathlib.Path(__file__).resolve().parent.parent
END = "\x1e"


def pieces(text, end):
    """The pieces of a text, each with its end."""
    return [piece + end for piece in text.split(end)[:-1]]


def read(path):
    """A file, with a character for each of its bytes: some cases are no text."""
    with open(path, newline="", encoding="latin-1") as file:
        return file.read()


def write(path, texts):
    with open(path, "w", newline="", encoding="latin-1") as file:
        file.writelines(texts)


def replace(crate, word, made, answer_end="\n", answers=lambda case: 1):
    """Writes the cases of a word anew.

    `made` has pairs: a case without its word and its end, and what the program answers. `answers`
    says how many pieces of stdout, each ended by `answer_end`, answer a case of another word.
    """
    folder = TOP / "crates" / crate
    cases = pieces(read(folder / "stdin"), END)
    due = pieces(read(folder / "stdout"), answer_end)
    places = [place for place, case in enumerate(cases) if re.split("[ \n]", case)[0] == word]
    first, last = (places[0], places[-1] + 1) if places else (len(cases), len(cases))
    made = [(case.encode().decode("latin-1"), answer) for case, answer in made]
    write(folder / "stdin", [*cases[:first], *(f"{word}\n{case}{END}" for case, _ in made), *cases[last:]])
    before = sum(map(answers, cases[:first]))
    behind = before + sum(map(answers, cases[first:last]))
    write(folder / "stdout", [*due[:before], *(answer for _, answer in made), *due[behind:]])
