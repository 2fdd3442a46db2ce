#!/usr/bin/env python3
"""Compares the sentences and remedies of `crates/vs_hints` with the tables of `docs/refusals.md`, and the answers that are
explained in `docs/` with the cases of `crates/cases/data/explained.cases`, which the program is tried on.

A cause in the tables begins with the sentence, and a remedy with the remedy; what may follow is said behind a full
stop, a semicolon or a colon. Marks of code count for nothing. Where a sentence has a name or a number in it the tables
have the words below in its place. Ends with status 1 where one differs."""
import re
import sys
from pathlib import Path

ROOT = Path(__file__).resolve().parent.parent

# what stands in the tables where a sentence has a name or a number
NAMED = {
    "NoTop": "of the top's name",
    "NoClock": "of the clock's name",
    "SamePath": "two places",
    "TooLarge": "its plane operations a half-period",
    "Latch": "the bit",
    "Sensitivity": "the signal",
    "TwoDrivers": "the bit",
    "Race": "the bit",
}


def text_of(literal):
    return literal.replace('\\"', '"').replace("\\\\", "\\")


def table(source):
    """The opening, closing and remedy of each name in the source."""
    found = {}
    for part in re.split(r"\n(?=(?:pub )?fn )", source):
        head = re.search(r"fn (\w+)\(", part)
        if not head:
            continue
        kind = head.group(1).split("_")[-1]
        kind = {"sentence": "opening"}.get(kind, kind)
        for name, literal in re.findall(r"::(\w+)(?: \{ \.\. \})? =>\s*\{?\s*\"((?:[^\"\\]|\\.)*)\"", part):
            found.setdefault(name, {})[kind] = text_of(literal)
    return found


def rows(document):
    """The cause and the remedy of each name in the tables."""
    for line in document.splitlines():
        cells = [c.strip() for c in line.strip().strip("|").split("|")]
        if len(cells) == 4 and cells[0].isdigit():
            yield cells[1], cells[2], cells[3]


def plain(cell):
    return cell.replace("`` ", "").replace(" ``", "").replace("`", "")


def begins(cell, text):
    cell = plain(cell)
    return cell == text or any(cell.startswith(text + mark) for mark in (". ", "; ", ": ", ", as "))


def case_answers(text):
    """The words and the answer of each case."""
    found = set()
    for part in re.split(r"^==== ", text, flags=re.M)[1:]:
        words = part.splitlines()[1]
        for answer in re.findall(r"^>>>> \d+\n(.*?)(?=^(?:>>>>|\+\+\+\+|\?\?\?\?|----|====) |\Z)", part, flags=re.M | re.S):
            found.add((words, answer.replace("\\t", "\t").replace("\\\\", "\\").rstrip("\n")))
    return found


def shown_answers(document):
    """The words and the answer of each run that a document shows with `--explain`."""
    for block in re.findall(r"^    > (cyclesim --explain.*(?:\n    .*)*)", document, flags=re.M):
        words, *answer = block.splitlines()
        yield words, "\n".join(line[4:] for line in answer)


def unknown_answers():
    """How many answers that the documents show are none of a case's."""
    known = case_answers((ROOT / "crates/cases/data/explained.cases").read_text())
    wrong = shown = 0
    for name in ("docs/refusals.md", "docs/running.md", "README.md"):
        for words, answer in shown_answers((ROOT / name).read_text()):
            shown += 1
            if (words, answer) not in known:
                print(f"{name}: no case has\n  {words}\n{answer}")
                wrong += 1
    print(f"{shown} answers, {wrong} that no case has")
    return wrong


def main():
    hints = table((ROOT / "crates/vs_hints/src/hints.rt").read_text())
    wrong = 0
    seen = set()
    for name, cause, remedy in rows((ROOT / "docs/refusals.md").read_text()):
        hint = hints.get(name)
        if hint is None:
            print(f"{name}: no hint")
            wrong += 1
            continue
        seen.add(name)
        sentence = hint["opening"] + NAMED.get(name, "") + hint.get("closing", "")
        for what, cell, text in (("cause", cause, sentence), ("remedy", remedy, hint["remedy"])):
            if not begins(cell, text):
                print(f"{name}: the {what} is\n  {plain(cell)}\nand not\n  {text}")
                wrong += 1
    for name in sorted(set(hints) - seen):
        print(f"{name}: no row")
        wrong += 1
    print(f"{len(seen)} refusals, {wrong} differences")
    return 1 if wrong + unknown_answers() else 0


if __name__ == "__main__":
    sys.exit(main())
