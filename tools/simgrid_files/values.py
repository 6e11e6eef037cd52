"""Numbers with units, as SimGrid writes them and as simgrid_replay takes them."""

import re
from fractions import Fraction

from .notes import Refused, quoted

# The numbers that strtod accepts, without hexadecimal ones, infinities and the like.
NUMBER = re.compile(r"\s*([+-]?)([0-9]+\.?[0-9]*|\.[0-9]+)(?:[eE]([+-]?[0-9]+))?")
# The numbers that simgrid_replay accepts.
OURS = re.compile(r"[0-9]{1,20}(\.[0-9]+)?([eE][+-]?[0-9]{1,3})?")
GREATEST_RATE, GREATEST_TIME, GREATEST_LATENCY, GREATEST_POWER, MOST_CORES = 10**15, 10**18, 10**15, 10**9, 1024


def prefixed(units, binary):
    """Units with SimGrid's prefixes; a number without one is in the first."""
    found = {"": 1, **units}
    for unit, value in units.items():
        for power, letter in enumerate("kMGTPEZY", 1):
            found[letter + unit] = value * 1000**power
        for power, letter in enumerate("KMGTPEZY" if binary else "", 1):
            found[letter + "i" + unit] = value * 1024**power
    return found


SPEEDS = prefixed({"f": 1}, False)
BANDWIDTHS = prefixed({"Bps": 1, "bps": Fraction(1, 8)}, True)
TIMES = {"": 10**9, "s": 10**9, "ms": 10**6, "us": 10**3, "ns": 1, "ps": Fraction(1, 1000), "m": 60 * 10**9, "h": 3600 * 10**9,
         "d": 86400 * 10**9, "w": 604800 * 10**9}
# The units that simgrid_replay has.
TAKEN = {id(SPEEDS): {"", "f", "kf", "Mf", "Gf", "Tf", "Pf"},
         id(BANDWIDTHS): {"", "Bps", "kBps", "MBps", "GBps", "TBps", "KiBps", "MiBps", "GiBps", "bps", "kbps", "Mbps", "Gbps"},
         id(TIMES): set(TIMES) - {"ps"}}


def fraction(text):
    """The number at the beginning of a text, and its end; None if there is no number."""
    number = NUMBER.match(text)
    if not number:
        return None, 0
    sign, digits, exponent = number.groups()
    if len(digits) > 400 or len(exponent or "") > 5 or abs(int(exponent or 0)) > 400:
        # Above 10^400 or below 10^-400: beyond every limit, or zero.
        small = (exponent or "").startswith("-") or not digits.strip("0.")
        value = Fraction(0) if small else Fraction(10**400)
    else:
        value = Fraction(digits.strip(".") if digits.endswith(".") else digits) * Fraction(10) ** int(exponent or 0)
    return -value if sign == "-" else value, number.end()


def number_of(element, text, what):
    """A number without a unit, not below zero."""
    value, end = fraction(text)
    if value is None or text[end:].strip() or value < 0:
        raise Refused(element, f"{what} {quoted(text)} isn't a number from 0 on")
    return value


def value_of(element, text, units, what, greatest, least=1):
    """The value of a text with a unit, checked."""
    value, end = fraction(text)
    if value is None:
        raise Refused(element, f"{what} {quoted(text)} isn't a number")
    if text[end:] not in units:
        raise Refused(element, f"{what} {quoted(text)} has a unit that SimGrid doesn't have")
    value *= units[text[end:]]
    if value < 0:
        raise Refused(element, f"{what} {quoted(text)} is below zero")
    if int(value) > greatest:
        raise Refused(element, f"{what} {quoted(text)} is too large: simgrid_replay takes at most "
                      + (f"{greatest // 10**9} s" if units is TIMES else f"{greatest}"))
    if int(value) < least:
        raise Refused(element, f"{what} {quoted(text)} is zero when rounded down")
    return value


def kept(text, units, value):
    """The text as it stands where simgrid_replay takes it, else the value as a plain number."""
    text = text.strip()
    number = OURS.match(text)
    if number and text[number.end():] in TAKEN[id(units)]:
        return text
    return seconds(int(value)) if units is TIMES else str(int(value))


def speed(element, text, what="speed"):
    """The text of a speed here, and its value."""
    value = value_of(element, text.strip(), SPEEDS, what, GREATEST_RATE)
    return kept(text, SPEEDS, value), value


def bandwidth(element, text, what="bandwidth"):
    return kept(text, BANDWIDTHS, value_of(element, text, BANDWIDTHS, what, GREATEST_RATE))


def times(element, text, factor, what="bandwidth"):
    """So many times a bandwidth."""
    value = value_of(element, text, BANDWIDTHS, what, GREATEST_RATE) * factor
    if int(value) > GREATEST_RATE:
        raise Refused(element, f"{factor} times the {what} {quoted(text)} is above {GREATEST_RATE}")
    return kept(text, BANDWIDTHS, value) if factor == 1 else str(int(value))


def latency(element, text, notes, what="latency"):
    value = value_of(element, text, TIMES, what, GREATEST_LATENCY, 0)
    if value and not int(value):
        notes.add(element, f"{element}: {what} {quoted(text)} is below a nanosecond, and 0 here")
    return kept(text, TIMES, value)


def cores(element, text):
    if not re.fullmatch(r"\s*\+?0*[0-9]{1,4}", text) or not 1 <= int(text) <= MOST_CORES:
        raise Refused(element, f"{element}: core {quoted(text)} isn't a whole number from 1 to {MOST_CORES}")
    return int(text)


def seconds(nanoseconds):
    whole, part = divmod(nanoseconds, 10**9)
    return f"{whole}.{part:09}".rstrip("0").rstrip(".")


def milliwatts(element, text, what, notes):
    """Watts in whole milliwatts, to the nearest."""
    value = number_of(element, text.strip(), what) * 1000
    if value > GREATEST_POWER:
        raise Refused(element, f"{what} {quoted(text)} is above {GREATEST_POWER // 1000} W")
    if value.denominator != 1:
        notes.add(element, f"{what} {quoted(text.strip())} is rounded to milliwatts")
    return round(value)


def radicals(element, text):
    """`0-3,7` as numbers."""
    found = []
    for group in text.split(","):
        ends = re.fullmatch(r"\s*([0-9]{1,9})\s*(?:-\s*([0-9]{1,9})\s*)?", group)
        if not ends:
            raise Refused(element, f"{element}: radical {quoted(text)} isn't a list of numbers and ranges")
        first, last = int(ends[1]), int(ends[2] or ends[1])
        if len(found) + last - first > 65536:
            raise Refused(element, f"{element}: radical {quoted(text)} names over 65536 hosts; a platform has at most 16384")
        found += range(first, last + 1)
    return found
