"""How many trees are stored. `tp list` can't be asked while `tp serve` has the store open, so each stop is asked for journeys to itself:
it is refused until its tree is stored, and never again after that."""
import asyncio
import itertools
import json

from .pipe import Pipe
from .refusals import Refusal
from .stops import Stop

AT_A_TIME = 200
PAUSE = 0.5
NO_JOURNEY = b'"journeys":[]}'


class Progress:
    """Counts the stops whose trees are stored, a little later than they are."""

    def __init__(self, pipe: Pipe, stops: list[Stop], moment: str) -> None:
        stations = {stop.station for stop in stops}
        self._pipe, self._moment = pipe, moment
        self._pending = dict.fromkeys(stop.id for stop in stops if stop.id not in stations)
        self.stops = len(self._pending)

    @property
    def stored(self) -> int:
        return self.stops - len(self._pending)

    async def run(self) -> None:
        """Asks until each tree is stored."""
        while self._pending:
            some = list(itertools.islice(self._pending, AT_A_TIME))
            for stop, still in zip(some, await self._ask(some)):
                del self._pending[stop]
                if still:
                    self._pending[stop] = None
            await asyncio.sleep(PAUSE)

    async def _ask(self, stops: list[str]) -> list[bool]:
        """For each stop, whether its tree is still to be stored."""
        replies = await asyncio.gather(*map(self._is_pending, stops), return_exceptions=True)
        return [reply is not False for reply in replies]

    async def _is_pending(self, stop: str) -> bool:
        if any(character in stop for character in "\t\r\n"):
            return True
        try:
            reply = await self._pipe.ask(f"{stop}\t{stop}\t{self._moment}\n".encode())
        except Refusal:
            return True
        if reply.endswith(NO_JOURNEY):  # a station without stops: it has no tree
            self.stops -= 1
            return False
        return "fault" in json.loads(reply)
