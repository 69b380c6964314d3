"""The words of the command line. Nothing here needs a package."""
import argparse
import datetime
import hashlib
import os
import re
import urllib.parse
from collections.abc import Callable
from pathlib import Path

from .moments import zone_of
from .settings import Settings

TOP = Path(__file__).resolve().parent.parent.parent
EXAMPLE = "example: web/run --feed demo/town --date 20270601"


def date(text: str) -> datetime.date:
    if not re.fullmatch(r"\d{8}", text, re.ASCII):
        raise argparse.ArgumentTypeError(f"{text!r} is no date as 20240102")
    try:
        return datetime.datetime.strptime(text, "%Y%m%d").date()
    except ValueError as error:
        raise argparse.ArgumentTypeError(f"{text!r} is no day of the calendar") from error


def zone(text: str) -> str:
    try:
        zone_of(text)
    except (ValueError, OverflowError) as error:
        raise argparse.ArgumentTypeError(f"{text!r} is no POSIX rule text that Python reads: {error}") from error
    return text


def tiles(text: str) -> str:
    parts = urllib.parse.urlsplit(text)
    is_plain = re.fullmatch(r"[A-Za-z0-9{}.:-]+", parts.netloc, re.ASCII)
    if parts.scheme not in ("https", "http") or not is_plain or not all(part in text for part in ("{x}", "{y}", "{z}")):
        raise argparse.ArgumentTypeError("the address of tiles begins with https:// and has {z}, {x} and {y}")
    return text


def within(least: int, most: int) -> Callable[[str], int]:
    """What reads a whole number within bounds."""
    def read(text: str) -> int:
        if not re.fullmatch(r"\d{1,9}", text, re.ASCII) or not least <= int(text) <= most:
            raise argparse.ArgumentTypeError(f"{text!r} is no whole number from {least} to {most}")
        return int(text)

    return read


def parser() -> argparse.ArgumentParser:
    words = argparse.ArgumentParser(prog="web/run", description="Answers over HTTP, with a page, while the store is built.", epilog=EXAMPLE)
    words.add_argument("--feed", type=Path, required=True, metavar="DIR", help="the folder of the feed's files")
    words.add_argument("--date", type=date, required=True, metavar="YYYYMMDD", help="the first covered day")
    words.add_argument("--days", type=within(1, 14), default=1, metavar="N", help="the number of covered days, 1 to 14 (1)")
    words.add_argument("--zone", type=zone, default="UTC0", metavar="RULE", help="the feed's zone as a POSIX rule text (UTC0)")
    words.add_argument("--rides", type=within(1, 8), default=3, metavar="K", help="the most rides of a journey, 1 to 8 (3)")
    words.add_argument("--default-walk", type=within(0, 86_400), default=120, metavar="SECONDS", help="for walks without a time (120)")
    words.add_argument("--store", type=Path, metavar="FILE", help="the file of the store (one for this choice, in ~/.cache/tp)")
    words.add_argument("--workers", type=within(1, 64), default=2, metavar="N", help="the number of trees that are built in parallel (2)")
    here = "the address to listen at (127.0.0.1, which only this machine reaches)"
    words.add_argument("--host", default="127.0.0.1", metavar="ADDRESS", help=here)
    words.add_argument("--port", type=within(0, 65_535), default=8080, metavar="N", help="the port; 0 for any that is free (8080)")
    words.add_argument("--tiles", type=tiles, metavar="URL", help="map tiles, as https://tile.example/{z}/{x}/{y}.png (none)")
    words.add_argument("--attribution", metavar="TEXT", help="how the owner of the tiles wants to be named")
    words.add_argument("--straight", action="store_true", help="draw rides straight, without a second process over a copy of the store")
    words.add_argument("--program", type=Path, default=TOP / "crates/tp/out/tp", metavar="FILE", help="the program (crates/tp/out/tp)")
    return words


def cached_store(given: argparse.Namespace) -> Path:
    """A store's file for this feed and these options, in the user's folder of caches. A store is of one choice of them."""
    choice = "\n".join(str(it) for it in (given.feed.resolve(), given.date, given.days, given.zone, given.rides, given.default_walk))
    name = f"{given.feed.resolve().name}-{given.date:%Y%m%d}-{hashlib.sha256(choice.encode()).hexdigest()[:12]}.store"
    return Path(os.environ.get("XDG_CACHE_HOME") or Path.home() / ".cache") / "tp" / name


def settings_of(words: list[str]) -> Settings:
    """The settings that the words of a command line say."""
    reader = parser()
    given = reader.parse_args(words)
    if given.store is None:
        given.store = cached_store(given)
        try:
            given.store.parent.mkdir(parents=True, exist_ok=True)
        except OSError as error:
            reader.error(f"{given.store.parent}: {error.strerror}: name a file with --store")
    return Settings(**vars(given))
