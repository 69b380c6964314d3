"""Lines as MOTIS writes them: Google's encoded polylines."""
from collections.abc import Iterable

PRECISION = 6


def encoded(number: int) -> str:
    """A whole number in groups of five bits, the lowest first, each a printable character."""
    left, text = (~(number << 1) if number < 0 else number << 1), ""
    while left >= 32:
        text += chr((32 | left & 31) + 63)
        left >>= 5
    return text + chr(left + 63)


def polyline(points: Iterable[tuple[float, float]]) -> str:
    """The line through points of latitude and longitude, each as its difference from the one before."""
    text, before = "", (0, 0)
    for point in points:
        now = (round(point[0] * 10**PRECISION), round(point[1] * 10**PRECISION))
        text += encoded(now[0] - before[0]) + encoded(now[1] - before[1])
        before = now
    return text
