"""SimGrid's traces of speeds, bandwidths and states as profiles."""

import re
from fractions import Fraction

from .notes import Refused, quoted
from .values import GREATEST_RATE, GREATEST_TIME, seconds

MOST_DATES = 1024
# A number of a trace.
TRACED = re.compile(r"\+?([0-9]+\.?[0-9]*|\.[0-9]+)([eE][+-]?[0-9]{1,3})?")


class Profile:
    """The values of one of SimGrid's traces by their dates in nanoseconds, and the gap after the last one."""

    def __init__(self, file, line, text, periodicity="-1"):
        """`line` is the one at which the text begins."""
        self.file, self.line, self.values, self.gap = file, line, {}, None
        self.loop_after(periodicity)
        self.last = Fraction(0)
        for number, words in enumerate((line.split() for line in text.splitlines()), line):
            if words and words[0][0] not in "#%":
                self.line = number
                self.read(words)
        if len(self.values) > MOST_DATES:
            self.refuse(f"{len(self.values)} dates, and a profile has at most {MOST_DATES}")

    def refuse(self, text):
        raise Refused((self.file, self.line), text)

    def read(self, words):
        if words[0] in ("PERIODICITY", "LOOPAFTER") and len(words) == 2:
            self.loop_after(words[1])
            return
        if words[0] == "STOCHASTIC":
            self.refuse("random values aren't supported: they would be drawn")
        if len(words) != 2 or not all(TRACED.fullmatch(word) for word in words):
            self.refuse("this isn't a date and a value, both from 0 on")
        date = Fraction(words[0])
        if date < self.last:
            self.refuse("the date is before the one above")
        self.last = date
        # Of values at one date the last holds.
        self.values[self.time(date)] = Fraction(words[1])

    def time(self, seconds):
        """In nanoseconds, rounded down."""
        time = int(seconds * 10**9)
        if time > GREATEST_TIME:
            self.refuse(f"a time above {GREATEST_TIME // 10**9} s")
        return time

    def loop_after(self, text):
        """The period; SimGrid repeats the trace if the number is above zero."""
        if not TRACED.fullmatch(text.strip().removeprefix("-")):
            self.refuse(f"{quoted(text)} isn't a time")
        self.gap = None if text.strip().startswith("-") or Fraction(text) == 0 else self.time(Fraction(text))
        if self.gap == 0:
            self.refuse("its period is less than a nanosecond")

    def rates(self, factor):
        """The values times a factor, rounded down."""
        values = [int(value * factor) for value in self.values.values()]
        if max(values) > GREATEST_RATE:
            self.refuse(f"a value above {GREATEST_RATE}")
        return {"values": [str(value) for value in values]}

    def states(self):
        """On if a value is above zero."""
        return {"states": ["on" if value else "off" for value in self.values.values()]}

    def keys(self, given):
        """The keys of a row except its host or link: the dates, their values, and the gap."""
        return {"dates": [seconds(date) for date in self.values], **given, **({"loop": seconds(self.gap)} if self.gap else {})}
