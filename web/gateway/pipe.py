"""The pipe to `tp serve`: questions go in line by line, and replies come out in the same order.

`tp serve` has the store for itself, so there is one pipe, and all requests share it. A process that ends is started again, and the
questions that it left without a reply are asked again. Questions are read one by one, so the first of them is the one at which it ended.
"""
import asyncio
import collections
import contextlib
import json
import logging
import time
from dataclasses import dataclass

from .processes import end, kill, start, streams_of
from .refusals import busy
from .settings import BYTES_OF_A_REPLY

FAULTS_BEFORE_A_REPLY = (1, 2, 4)
NO_SUCH_PROGRAM = 127
TRIES = 2
SECONDS_OF_A_LEAVE = 1.0
FIRST_PAUSE, LAST_PAUSE = 0.1, 5.0
LONG_LIFE = 10.0
LINES_OF_ERRORS = 5

log = logging.getLogger("gateway")


def plain_fault(line: str) -> str:
    """A line of standard error as `tp` writes it for people, if it is a fault in JSON."""
    try:
        fault = json.loads(line)["fault"]
        words = ["tp:", fault["code"], fault["name"], fault["file"], None if fault["row"] is None else f"row {fault['row']}", fault["id"]]
    except (ValueError, TypeError, KeyError):
        return line
    return " ".join(word for word in words if word)


@dataclass
class Asked:
    """A question in the pipe, when it was last sent, and how many processes ended at it."""

    line: bytes
    reply: asyncio.Future[bytes]
    ends: int = 0
    sent: float = 0.0


class Pipe:
    """A process that replies to lines, and the questions that wait for its replies."""

    def __init__(self, words: list[str], room: int, patience: float) -> None:
        self._words, self._room, self._patience = words, room, patience
        self._asked: collections.deque[Asked] = collections.deque()
        self._process: asyncio.subprocess.Process | None = None
        self._errors: collections.deque[str] = collections.deque(maxlen=LINES_OF_ERRORS)
        self._hello: Asked | None = None
        self._is_closing = False
        self._has_ever_replied = False
        self.is_ready = False
        self.starts = 0

    async def ask(self, line: bytes) -> bytes:
        """The reply to a question, a line without its end; refused if it does not come in time."""
        if len(self._asked) >= self._room:
            raise busy("too many questions are waiting")
        asked = Asked(line, asyncio.get_running_loop().create_future())
        self._asked.append(asked)
        self._send(asked)
        try:
            return await asyncio.wait_for(asked.reply, self._patience)
        except TimeoutError as error:
            self._end_if_stuck()
            raise busy("tp has not replied in time" if self.is_ready else "tp is starting") from error

    async def run(self) -> tuple[int, str] | None:
        """Keeps a process alive until the pipe is closed. Gives a status and why, if the first process ends by a fault before
        its first reply."""
        pause = FIRST_PAUSE
        while not self._is_closing:
            since = time.monotonic()
            status = await self._live()
            if time.monotonic() - since > LONG_LIFE:
                pause = FIRST_PAUSE
            if self._is_closing:
                break
            if not self._has_ever_replied and status in (*FAULTS_BEFORE_A_REPLY, NO_SUCH_PROGRAM):
                return status, "\n".join(self._errors)
            log.warning("tp ended with status %s and is started again in %.1f s: %s", status, pause, " / ".join(self._errors))
            await asyncio.sleep(pause)
            pause = min(2 * pause, LAST_PAUSE)
        return None

    async def close(self, seconds: float) -> None:
        """Ends the input, so that the process stores what is in hand and ends. It is killed if that takes longer than `seconds`."""
        self._is_closing = True
        if self._process is None:
            return
        streams_of(self._process)[0].close()
        await end(self._process, seconds)

    async def _live(self) -> int:
        """Starts a process, takes its replies to their end, and gives its status."""
        try:
            process = await start(self._words)
        except OSError as error:
            self._errors.append(str(error))
            return NO_SUCH_PROGRAM
        self._process = process
        self.starts += 1
        _, replies, messages = streams_of(process)
        errors = asyncio.create_task(self._take_errors(messages))
        self._begin()
        try:
            await self._take_replies(replies)
        finally:
            self.is_ready = False
            if not self._is_closing:
                self._process = None
                await end(process, SECONDS_OF_A_LEAVE)
            await asyncio.wait({errors}, timeout=SECONDS_OF_A_LEAVE)
            errors.cancel()
        return await process.wait()

    def _send(self, asked: Asked) -> None:
        if self._process is not None and not self._is_closing:
            asked.sent = time.monotonic()
            streams_of(self._process)[0].write(asked.line)

    def _begin(self) -> None:
        """Sends a line that is no question, whose reply says that the process is ready, and the questions that wait. One at which several
        processes ended is refused."""
        if self._hello is not None:
            self._hello.reply.cancel()
            self._blame_first()
        self._hello = Asked(b"\n", asyncio.get_running_loop().create_future())
        self._asked = collections.deque([self._hello, *(asked for asked in self._asked if not asked.reply.done())])
        for asked in self._asked:
            self._send(asked)

    def _blame_first(self) -> None:
        """Counts the end of a process to the question that it would have replied to."""
        if self._asked and not self._asked[0].reply.done():
            first = self._asked[0]
            first.ends += 1
            if first.ends >= TRIES:
                first.reply.set_exception(busy("tp ended before it replied"))

    async def _take_replies(self, replies: asyncio.StreamReader) -> None:
        """Hands each line to the question that it is the reply to. A line without an end is dropped. One that nobody asked for ends the
        process, since no later line would be matched rightly."""
        while True:
            try:
                line = await replies.readline()
            except ValueError:
                log.error("tp wrote a reply of more than %d bytes", BYTES_OF_A_REPLY)
                self._kill()
                return
            if not line.endswith(b"\n"):
                return
            if not self._asked:
                log.error("tp wrote a reply that nobody had asked for")
                self._kill()
                return
            self.is_ready = self._has_ever_replied = True
            asked = self._asked.popleft()
            if not asked.reply.done():
                asked.reply.set_result(line[:-1])

    async def _take_errors(self, errors: asyncio.StreamReader) -> None:
        """Keeps the last lines of standard error."""
        with contextlib.suppress(ValueError):
            while line := await errors.readline():
                self._errors.append(plain_fault(line.decode(errors="replace").rstrip()))

    def _end_if_stuck(self) -> None:
        """Kills a process that had replied, and then leaves the first question without a reply."""
        if self.is_ready and self._asked and time.monotonic() - self._asked[0].sent >= self._patience:
            log.error("tp has not replied for %.0f s, and is ended", self._patience)
            self._kill()

    def _kill(self) -> None:
        if self._process is not None:
            kill(self._process)
