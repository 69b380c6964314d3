"""The lines of rides through the stops between, from a second `tp serve`.

The replies in JSON lack these stops, and those in GeoJSON lack the names and times of a plan. Each `tp serve` has its store for itself. So
the second one has a copy, which is made once all trees are stored. Until then, and whenever it doesn't reply, lines are straight.
"""
import asyncio
import json
import logging
import shutil
import tempfile
from pathlib import Path
from typing import Any

from .pipe import Pipe
from .refusals import Refusal
from .settings import QUESTIONS_IN_THE_PIPE, Settings

SECONDS = 2.0
log = logging.getLogger("gateway")
Line = list[list[float]]


class Lines:
    """Answers with the line of each leg."""

    def __init__(self, settings: Settings) -> None:
        self._settings = settings
        self._pipe: Pipe | None = None

    @property
    def is_ready(self) -> bool:
        return self._pipe is not None and self._pipe.is_ready

    async def run(self) -> None:
        """Copies the store, which must be whole, and answers until it is closed; the copy is gone then."""
        store = self._settings.store
        try:
            await self._run_over_copy(store)
        except OSError as error:
            log.warning("lines stay straight, since the store can't be copied: %s", error.strerror)

    async def _run_over_copy(self, store: Path) -> None:
        with tempfile.TemporaryDirectory(prefix=f".{store.name}-", dir=store.parent) as folder:
            copy = Path(folder) / "lines"
            await asyncio.to_thread(lambda: shutil.copyfile(store, copy))
            self._pipe = Pipe(self._settings.serve_words(copy, "geojson"), QUESTIONS_IN_THE_PIPE, SECONDS)
            fault = await self._pipe.run()
            if fault is not None:
                log.warning("lines stay straight: %s", fault[1])

    async def close(self, seconds: float) -> None:
        if self._pipe is not None:
            await self._pipe.close(seconds)

    async def of(self, question: bytes) -> list[dict[str, Any]]:
        """The features of a question's answer, one for each leg; none if they aren't there."""
        if self._pipe is None or not self._pipe.is_ready:
            return []
        try:
            reply: dict[str, Any] = json.loads(await self._pipe.ask(question))
        except Refusal:
            return []
        return reply.get("features", [])


def lines_of(features: list[dict[str, Any]], answer: dict[str, Any]) -> list[Line | None]:
    """For each leg of an answer, journey by journey, its line; none if the features are of other legs, or a leg has too few positions."""
    legs = [leg for journey in answer["journeys"] for leg in journey["legs"]]
    ends = [(feature["properties"]["from"], feature["properties"]["to"]) for feature in features]
    if ends != [(leg["from"]["id"], leg["to"]["id"]) for leg in legs]:
        return [None] * len(legs)
    return [feature["geometry"] and feature["geometry"]["coordinates"] for feature in features]
