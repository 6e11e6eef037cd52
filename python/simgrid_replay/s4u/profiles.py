"""Profiles: values by their dates, which may repeat after a period."""

from collections.abc import Iterator

# The date in seconds up to which periodic profiles are followed.
HORIZON = 1e9


def points_of(text: str) -> list[tuple[float, float]]:
    """The dates and values of a text with a pair on each line."""
    return [(float(line.split()[0]), float(line.split()[1])) for line in text.splitlines() if line.strip() and line.strip()[0] not in "#%"]


def unrolled(points: list[tuple[float, float]], period: float) -> Iterator[tuple[float, float]]:
    """The changes in order. A period that isn't above 0 means no repetition."""
    base = 0.0
    while base < HORIZON:
        yield from ((base + date, value) for date, value in points)
        if period <= 0:
            return
        base += period
