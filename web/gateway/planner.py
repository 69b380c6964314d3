"""The planner at the other end of the pipe: its life, its stops, and its answers."""
import asyncio
import contextlib
import datetime
import json
from collections.abc import Awaitable, Callable
from typing import Any

from .lines import Lines, lines_of
from .moments import moment_of, service_time, zone_of
from .motis import plan_of
from .pipe import Pipe
from .progress import Progress
from .queries import PlanQuery
from .refusals import refusal_of
from .settings import QUESTIONS_IN_THE_PIPE, SECONDS_OF_A_QUESTION, SECONDS_OF_THE_END, Settings
from .stops import StopsFault, StopSearch

# Takes a status and a cause, and ends the gateway.
Fail = Callable[[int, str], None]
STATUS_OF_A_STORE = 4
STATUS_OF_A_MISTAKE = 70
# What to do about a fault of the store, by its code: the JSON of a fault has no advice.
ADVICE = {
    "Z2": ", for another timetable: delete it, or name another with --store", "Z3": ", for another --rides: name another with --store",
    "Z4": ", which is damaged: delete it, and it is built again", "Z5": "; another process may have it open",
}


class Planner:
    """Answers requests from one `tp serve`."""

    def __init__(self, settings: Settings) -> None:
        self._settings = settings
        self._zone = zone_of(settings.zone)
        self._pipe = Pipe(settings.serve_words(settings.store, "json"), QUESTIONS_IN_THE_PIPE, SECONDS_OF_A_QUESTION)
        self._progress: Progress | None = None
        self._lines = Lines(settings)
        self._tasks: list[asyncio.Task[None]] = []
        self.search = StopSearch(settings)

    def start(self, fail: Fail) -> None:
        """Starts the process. `fail` gets a fault that no other start can mend."""
        self._tasks = [asyncio.create_task(self._keep(work(fail), fail)) for work in (self._keep_pipe, self._keep_progress)]

    async def close(self) -> None:
        await asyncio.gather(self._pipe.close(SECONDS_OF_THE_END), self._lines.close(SECONDS_OF_THE_END))
        for task in self._tasks:
            task.cancel()
        for task in self._tasks:
            with contextlib.suppress(asyncio.CancelledError):
                await task

    async def plan(self, query: PlanQuery) -> dict[str, Any]:
        """The response of plan."""
        moment = moment_of(query.time, self._zone) if query.time is not None else now()
        date, clock = service_time(moment, self._settings, self._zone)
        question = f"{query.start}\t{query.end}\t{date}\t{clock}\n".encode()
        line, features = await asyncio.gather(self._pipe.ask(question), self._lines.of(question))
        reply = json.loads(line)
        if "fault" in reply:
            raise refusal_of(reply["fault"])
        asked: dict[str, Any] = {"fromPlace": query.start, "toPlace": query.end, "time": moment.astimezone(self._zone).isoformat()}
        return plan_of(reply, lines_of(features, reply), asked if query.count is None else {**asked, "numItineraries": query.count})

    def health(self) -> tuple[int, dict[str, Any]]:
        """A status, and how many trees are stored."""
        progress = self._progress
        state = "ok" if self._pipe.is_ready and progress else "starting"
        return 200 if state == "ok" else 503, {
            "status": state, "stops": progress.stops if progress else None, "stored": progress.stored if progress else None,
            "firstDate": self._settings.date.isoformat(), "lastDate": self._settings.last_date.isoformat(), "zone": self._settings.zone,
            "starts": self._pipe.starts, "lines": "through stops" if self._lines.is_ready else "straight",
            "now": now().astimezone(self._zone).isoformat(),
        }

    @staticmethod
    async def _keep(work: Awaitable[None], fail: Fail) -> None:
        """Does work that lasts, so that a mistake in it ends the gateway, and not only the work."""
        try:
            await work
        except Exception as error:
            fail(STATUS_OF_A_MISTAKE, f"the gateway has a fault: {error!r}")

    async def _keep_pipe(self, fail: Fail) -> None:
        fault = await self._pipe.run()
        if fault is None:
            return
        status, cause = fault
        if status == STATUS_OF_A_STORE:
            code = cause.removeprefix("tp: ")[:2]
            cause += f"\nThe store is {self._settings.store}{ADVICE.get(code, '')}."
        fail(status, cause)

    async def _keep_progress(self, fail: Fail) -> None:
        try:
            stops = await self.search.all()
        except StopsFault as error:
            fail(error.status, str(error))
            return
        self._progress = Progress(self._pipe, stops, f"{self._settings.date:%Y%m%d}\t12:00:00")
        await self._progress.run()
        if not self._settings.straight:
            await self._lines.run()


def now() -> datetime.datetime:
    """The moment, rounded up to a second."""
    moment = datetime.datetime.now(datetime.UTC)
    return moment.replace(microsecond=0) + datetime.timedelta(seconds=1 if moment.microsecond else 0)
