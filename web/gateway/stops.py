"""Stops and stations by a part of their name, from `tp stops`."""
import asyncio
import collections
import re
from dataclasses import dataclass

from .processes import kill, start
from .refusals import Refusal, busy
from .settings import SEARCHES_AT_ONCE, SECONDS_OF_A_SEARCH, Settings

ESCAPED = re.compile(r"\\(?:\\|u\{([0-9a-f]{1,6})\})")
MORE = re.compile(r"more \d+")
KEPT = 1_024


class StopsFault(Exception):
    """`tp stops` has reported a fault."""

    def __init__(self, status: int, report: str) -> None:
        super().__init__(report)
        self.status = status


@dataclass(frozen=True)
class Stop:
    """A stop or a station; each field but the id may be empty."""

    id: str
    name: str
    station: str
    latitude: str
    longitude: str


def plain(field: str) -> str:
    """A field without the escapes of `tp`: `\\\\` is a backslash, and `\\u{9}` the character of that number."""
    return ESCAPED.sub(lambda found: chr(int(found[1], 16)) if found[1] else "\\", field)


def stops_of(lines: str) -> list[Stop]:
    """The stops of what `tp stops` prints. The line that counts the rest has no tabs."""
    return [Stop(*map(plain, line.split("\t"))) for line in lines.split("\n") if line and not MORE.fullmatch(line)]


async def run_stops(words: list[str]) -> list[Stop]:
    """Runs `tp stops` to its end."""
    try:
        process = await start(words)
    except OSError as error:
        raise StopsFault(127, str(error)) from error
    try:
        out, err = await process.communicate()
    finally:
        kill(process)
    if process.returncode:
        raise StopsFault(process.returncode, err.decode(errors="replace").strip())
    return stops_of(out.decode())


class StopSearch:
    """Looks for stops, a few processes at once, and keeps what was found last."""

    def __init__(self, settings: Settings) -> None:
        self._settings = settings
        self._turns = asyncio.Semaphore(SEARCHES_AT_ONCE)
        self._found: collections.OrderedDict[str, list[Stop]] = collections.OrderedDict()

    async def all(self) -> list[Stop]:
        return await run_stops(self._settings.stops_words("--all"))

    async def find(self, text: str) -> list[Stop]:
        """The first stops whose id or name contains the text."""
        if text in self._found:
            self._found.move_to_end(text)
            return self._found[text]
        try:
            async with asyncio.timeout(SECONDS_OF_A_SEARCH), self._turns:
                found = await run_stops(self._settings.stops_words("--", text))
        except TimeoutError as error:
            raise busy("the search has not ended in time") from error
        except StopsFault as error:
            raise Refusal(502, "BadReply", "tp stops has reported a fault") from error
        self._found[text] = found
        if len(self._found) > KEPT:
            self._found.popitem(last=False)
        return found
