"""Reads VCD files (IEEE 1364-2005, clause 18), for the scripts beside it: those of `cyclesim` and of other simulators."""

import argparse
import bisect
import sys


class Signal:
    """A signal: its path, as `top.control.head`, its number of bits, and its values, each with the time from which on it holds."""

    def __init__(self, path, width):
        self.path, self.width, self.times, self.values = path, width, [], []

    def put(self, time, digits):
        self.times.append(time)
        self.values.append(fill(digits.lower(), self.width))

    def at(self, time):
        """The value at the end of what happens at a time: the last one that isn't after it; None before the first."""
        k = bisect.bisect_right(self.times, time)
        return self.values[k - 1] if k else None

    def before(self, time):
        """The value just before what happens at a time; None before the first."""
        k = bisect.bisect_left(self.times, time)
        return self.values[k - 1] if k else None


class Scope:
    """A scope of a file: the signals in it and within it, by their names below it, and the last time in the file."""

    def __init__(self, file, path, signals, end):
        self.file, self.path, self.signals, self.end = file, path, signals, end

    def signal(self, name):
        own = ", ".join(n for n in self.signals if "." not in n)
        return self.signals.get(name) or fail(f"{self.file}: no signal {name} in {self.path}, which has {own or 'none of its own'}")

    def rises(self, name):
        """The times at which a signal of one bit goes from 0 to 1."""
        clock = self.signal(name)
        pairs = zip(clock.values, clock.values[1:], clock.times[1:])
        return [time for last, value, time in pairs if (last, value) == ("0", "1")] or fail(f"{self.file}: {name} never rises")

    def moments(self, asked):
        """The times just before which the inputs of a line are seen: each rise of the clock that was asked for, or each multiple of the step."""
        if asked.clock is not None:
            return self.rises(asked.clock)
        return list(range(asked.step, self.end + 1, asked.step)) or fail(f"{self.file}: it ends at {self.end}, before the first step")


class Wave:
    """A waveform: its signals in the order of their declarations, and its times."""

    def __init__(self, file, signals, times):
        self.file, self.signals, self.times = file, signals, times

    def scope(self, path=None):
        """The scope of this path, as `tb.dut`; without one the first that is declared."""
        path = path or self.signals[0].path.split(".")[0]
        found = {s.path[len(path) + 1:]: s for s in self.signals if s.path.startswith(path + ".")}
        return Scope(self.file, path, found, self.times[-1]) if found else fail(f"{self.file}: no scope {path}; the first signal is {self.signals[0].path}")


def fail(message):
    """Ends the script with a line that says why, and the status 2."""
    print(message, file=sys.stderr)
    sys.exit(2)


def fill(digits, width):
    """A dumped value with the leading digits that were left out (18.2.2)."""
    return (digits[0] if digits[0] in "xz" else "0") * (width - len(digits)) + digits


def words_of(description):
    """The command line of a script that begins with this description."""
    return argparse.ArgumentParser(description=description, formatter_class=argparse.RawDescriptionHelpFormatter)


def add_moments(words):
    """The words that say when a line is seen: at the rises of a clock, or in steps of time where there is none."""
    when = words.add_mutually_exclusive_group(required=True)
    when.add_argument("--clock", metavar="C", help="the name of the clock")
    when.add_argument("--step", type=step_of, metavar="T", help="without a clock: how long a line stands")


def step_of(text):
    """A length of time, one unit at least."""
    if not text.isascii() or not text.isdigit() or int(text) < 1:
        raise argparse.ArgumentTypeError(f"{text} is no length of time")
    return int(text)


def load(path):
    """The waveform in a file."""
    try:
        with open(path, encoding="ascii", errors="replace") as file:
            signals, times = read(file.read())
    except OSError as fault:
        fail(f"{path}: {fault.strerror}")
    except (KeyError, IndexError, ValueError, StopIteration):
        fail(f"{path}: not a VCD text")
    if not signals or not times:
        fail(f"{path}: a VCD text without {'times' if signals else 'signals'}")
    return Wave(path, signals, times)


def read(text):
    """The signals of a VCD text in the order of their declarations, and its times."""
    signals, by_code, scopes, times, time = [], {}, [], [], 0
    words = iter(text.split())

    def skip():
        while next(words) != "$end":
            pass

    for word in words:
        if word == "$scope":
            next(words)
            scopes.append(next(words))
            skip()
        elif word == "$upscope":
            scopes.pop()
            skip()
        elif word == "$var":
            next(words)
            width, code, name = int(next(words)), next(words), next(words)
            signal = Signal(".".join(scopes + [name]), width)
            # (a code may stand for several names)
            same = by_code.setdefault(code, signal)
            signal.times, signal.values = same.times, same.values
            signals.append(signal)
            skip()
        elif word in ("$dumpvars", "$dumpall", "$dumpon", "$dumpoff", "$end"):
            pass
        elif word[0] == "$":
            skip()
        elif word[0] == "#":
            time = int(word[1:])
            times += [time] if times[-1:] != [time] else []
        elif word[0] in "bB":
            by_code[next(words)].put(time, word[1:])
        elif word[0] in "rR":
            next(words)
        elif word[0] in "01xXzZ":
            by_code[word[1:]].put(time, word[0])
        else:
            raise ValueError(word)
    return signals, times
