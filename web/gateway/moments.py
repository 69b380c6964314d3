"""Moments of the clock, and times of service days."""
import datetime
import io
import re
import struct
from zoneinfo import ZoneInfo

from .refusals import Refusal, bad
from .settings import Settings

RFC_3339 = re.compile(r"(\d{4}-\d\d-\d\d)[Tt ](\d\d:\d\d:\d\d)(?:\.(\d{1,12}))?([Zz]|[+-](?:[01]\d|2[0-3]):[0-5]\d)?", re.ASCII)
HALF_A_DAY = datetime.timedelta(hours=12)
SECOND = datetime.timedelta(seconds=1)


def zone_of(rule: str) -> ZoneInfo:
    """The zone of a POSIX rule text; ValueError if it is none. The rule is the last line of a zone file (RFC 8536) without transitions."""
    if not rule.isascii() or not rule.isprintable():
        raise ValueError("a zone's rule is printable ASCII")
    block = struct.pack(">4sc15x6l", b"TZif", b"2", 0, 0, 0, 0, 1, 4) + struct.pack(">lBB4s", 0, 0, 0, b"UTC\0")
    return ZoneInfo.from_file(io.BytesIO(block + block + b"\n" + rule.encode() + b"\n"), rule)


def start_of(day: datetime.date, zone: ZoneInfo) -> datetime.datetime:
    """When a service day starts: 12 hours before its noon."""
    return datetime.datetime.combine(day, datetime.time(12), zone).astimezone(datetime.UTC) - HALF_A_DAY


def moment_of(text: str, zone: ZoneInfo) -> datetime.datetime:
    """The moment of an RFC 3339 text, rounded up to a second. A text without an offset is by the zone's clock."""
    found = RFC_3339.fullmatch(text)
    if found is None:
        raise bad("time", "it must be RFC 3339, as 2024-01-02T08:00:00Z, or with an offset as %2B01:00 (a plus sign has to be written %2B)")
    day, clock, fraction, offset = found.groups()
    try:
        moment = datetime.datetime.fromisoformat(f"{day}T{clock}{(offset or '').upper()}")
        moment = (moment if offset else moment.replace(tzinfo=zone)).astimezone(datetime.UTC)
        return moment + SECOND if fraction and int(fraction) else moment
    except ValueError as error:
        raise bad("time", "there is no such day or time") from error
    except OverflowError as error:
        raise not_covered() from error


def not_covered() -> Refusal:
    return Refusal(400, "NotCovered", "the time is not within the covered days")


def service_time(moment: datetime.datetime, settings: Settings, zone: ZoneInfo) -> tuple[str, str]:
    """The date and time by which `tp` is asked: those of the last covered day that has started at the moment."""
    try:
        is_covered = settings.date <= moment.astimezone(zone).date() <= settings.last_date
    except OverflowError as error:
        raise not_covered() from error
    if not is_covered:
        raise not_covered()
    for number in reversed(range(settings.days)):
        day = settings.date + datetime.timedelta(days=number)
        seconds = (moment - start_of(day, zone)) // SECOND
        if seconds >= 0:
            return f"{day:%Y%m%d}", f"{seconds // 3600:02}:{seconds // 60 % 60:02}:{seconds % 60:02}"
    raise not_covered()
