#!/usr/bin/env python3
"""Turns the reports of `cyclesim check` into the JUnit XML that CI systems read, a test case a stimulus.

    cyclesim check --top top --clock clk d.v tests/* > report; python3 tools/junit.py report tests/* > junit.xml

The words are the report and then the stimuli in the order in which they were given, so that lane i is the i-th of them; several batches are given
as `report stimuli .. --and report stimuli ..`. A stimulus that missed is a failure, with its line, the output's place behind `->` and the digits; where
a run was refused, the lane that the refusal names is an error, and so is every stimulus where it names none. It needs Python 3 alone. The status
is 0 where every stimulus met what it wants, and 1 else."""
import sys
from pathlib import Path
from xml.sax.saxutils import escape, quoteattr


def fields_of(line):
    """The fields NAME=VALUE of a line."""
    return dict(word.split("=", 1) for word in line.split() if "=" in word)


def batches_of(words):
    """The report and the stimuli of each batch."""
    batch = []
    for word in [*words, "--and"]:
        if word != "--and":
            batch.append(word)
        elif len(batch) < 2:
            sys.exit(__doc__)
        else:
            yield batch[0], batch[1:]
            batch = []


def output_of(path, place):
    """The name of the output at this place behind `->` in the stimulus's header, or its number where the file doesn't tell."""
    try:
        lines = Path(path).read_text(errors="replace").split("\n")
    except OSError:
        return f"output {place}"
    headers = [line.split() for line in lines if line.strip() and not line.strip().startswith("#")]
    names = headers[0][headers[0].index("->") + 1 :] if headers and "->" in headers[0] else []
    return names[place] if place < len(names) else f"output {place}"


def verdicts_of(report, stimuli):
    """For each stimulus None where it met all, or the kind, the message and the text of what went wrong."""
    lines = Path(report).read_text().splitlines()
    last = lines[-1] if lines else "no report line"
    verdicts = [None] * len(stimuli)
    if not last.startswith("ok "):
        lane = fields_of(last).get("lane")
        place = fields_of(last).get("place")
        if lane is None and place is not None and 1000 <= int(place) < 2000:
            lane = int(place) - 1000
        blamed = range(len(stimuli)) if lane is None else [int(lane)]
        for i in range(len(stimuli)):
            verdicts[i] = ("error", last, last) if i in blamed else ("skipped", "the run was refused", last)
    for line in lines:
        if line.startswith("missed "):
            of = fields_of(line)
            lane = int(of["lane"])
            name = output_of(stimuli[lane], int(of["output"]))
            text = f"{stimuli[lane]}:{of['line']}: {name} is {of['got']}, wanted {of['wanted']}"
            verdicts[lane] = ("failure", f"{name} is {of['got']}, wanted {of['wanted']}", text)
    return verdicts


def main():
    suites, failed = [], False
    for report, stimuli in batches_of(sys.argv[1:]):
        verdicts = verdicts_of(report, stimuli)
        count = {kind: sum(1 for it in verdicts if it and it[0] == kind) for kind in ("failure", "error", "skipped")}
        failed = failed or any(verdicts)
        cases = []
        for path, verdict in zip(stimuli, verdicts):
            head = f"    <testcase classname={quoteattr(Path(report).stem)} name={quoteattr(path)}"
            if verdict is None:
                cases.append(f"{head}/>")
            else:
                kind, message, text = verdict
                cases.append(f"{head}>\n      <{kind} message={quoteattr(message)}>{escape(text)}</{kind}>\n    </testcase>")
        suites.append(
            f"  <testsuite name={quoteattr(Path(report).stem)} tests=\"{len(stimuli)}\" failures=\"{count['failure']}\" "
            f"errors=\"{count['error']}\" skipped=\"{count['skipped']}\">\n" + "\n".join(cases) + "\n  </testsuite>"
        )
    print('<?xml version="1.0" encoding="UTF-8"?>\n<testsuites>\n' + "\n".join(suites) + "\n</testsuites>")
    return 1 if failed else 0


if __name__ == "__main__":
    sys.exit(main())
