#!/usr/bin/env python3
"""Makes a stimulus of a VCD file: what stands on the inputs just before each rise of the clock.

    stimulus_from_wave.py --clock C [--scope PATH] FILE INPUT ..
    stimulus_from_wave.py --step T [--scope PATH] FILE INPUT ..

FILE is a waveform of any simulator, in which the design's top stands in the scope PATH (`tb.dut`; without PATH in the
first scope). C is the name of the top's clock input, and INPUT .. are the names of its other inputs, all of them.
A design without a clock has a line for each T units of time: what stands just before T, 2T, 3T, to the file's end.
The stimulus goes to standard output (`docs/stimulus.md`). An input that has no value yet is written as x. In the
first line each input has to be 0 or 1: where one isn't, a warning says so.
"""

import sys

from waves import add_moments, load, words_of


def main():
    words = words_of(__doc__)
    add_moments(words)
    words.add_argument("--scope", metavar="PATH", help="where the top stands")
    words.add_argument("file", metavar="FILE")
    words.add_argument("inputs", nargs="*", metavar="INPUT")
    asked = words.parse_args()

    top = load(asked.file).scope(asked.scope)
    inputs = [(name, top.signal(name)) for name in asked.inputs]
    print(" ".join(["inputs", *asked.inputs]))
    for k, time in enumerate(top.moments(asked)):
        line = [signal.before(time) or "x" * signal.width for _, signal in inputs]
        print(" ".join(line) or "-")
        for (name, _), digits in zip(inputs, line):
            if k == 0 and not set(digits) <= set("01"):
                print(f"warning: {name} is {digits} in the first line, where it has to be known", file=sys.stderr)


if __name__ == "__main__":
    main()
