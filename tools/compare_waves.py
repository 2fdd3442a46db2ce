#!/usr/bin/env python3
"""Compares two VCD files just before each rise of a clock, and prints the signals that differ.

    compare_waves.py --clock C [--scope PATH] [--rises N] A B
    compare_waves.py --step T [--scope PATH] [--rises N] A B

B is a waveform of `cyclesim`. A may be one of another simulator, in which the design's top stands in the
scope PATH (`tb.dut`); without PATH it stands in the first scope. C is the name of the top's clock input.
Rise k, counted from 0, is the rise at which the k-th line of the stimulus is sampled. What comes of the
last rise isn't seen: one more line in the stimulus shows it. --rises N compares the first N alone.

Designs without a clock are compared just before T, 2T, 3T and so on, for as long as both files go: there T is twice
the half-period of the run, and line k of the stimulus is seen at moment k.

Signals are told apart by their names below the top. The last line says how many were compared at how many
rises, how many of them differ, and how many only one file has. The status is 0 where none differs and, but
for --rises, both files have as many rises; 1 where there is a difference; 2 where nothing can be compared.
"""

import sys

from waves import add_moments, fail, load, words_of


def difference(a, b, rises, what):
    """What is printed of a signal that differs, or None."""
    differing = [k for k, (s, t) in enumerate(rises) if a.before(s) != b.before(t)]
    if not differing:
        return None
    s, t = rises[differing[0]]
    values = f"{a.before(s)} before {s} in A, {b.before(t)} before {t} in B"
    return f"differs at {len(differing)} of {len(rises)} {what}s, first at {what} {differing[0]}: {values}"


def main():
    words = words_of(__doc__)
    add_moments(words)
    words.add_argument("--scope", metavar="PATH", help="where the top stands in A")
    words.add_argument("--rises", type=int, metavar="N", help="how many rises, or steps, are compared")
    words.add_argument("a", metavar="A")
    words.add_argument("b", metavar="B")
    asked = words.parse_args()

    a, b = load(asked.a).scope(asked.scope), load(asked.b).scope()
    times = a.moments(asked), b.moments(asked)
    rises = list(zip(*times))[:asked.rises]
    what = "step" if asked.clock is None else "rise"
    both = [name for name in b.signals if name in a.signals]
    if not both:
        fail(f"{asked.a}: no signal of {asked.b} in {a.path}")
    differing = 0
    for name in both:
        told = difference(a.signals[name], b.signals[name], rises, what)
        if told:
            differing += 1
            print(f"{name} {told}")
    alone = f"{len(a.signals) - len(both)} in A alone, {len(b.signals) - len(both)} in B alone"
    print(f"{len(both)} signals at {len(rises)} {what}s, {differing} differ; {alone}")
    cut = asked.rises is None and asked.clock is not None and len(times[0]) != len(times[1])
    if cut:
        print(f"A has {len(times[0])} rises, B {len(times[1])}")
    sys.exit(1 if differing or cut else 0)


if __name__ == "__main__":
    main()
