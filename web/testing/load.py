"""Many clients at once while trees are built, and `tp` killed meanwhile: no wrong answer, and none lost."""
import concurrent.futures
import http.client
import json
import os
import random
import signal
import threading
import time
from collections.abc import Callable
from dataclasses import dataclass
from pathlib import Path
from typing import Any

from .comparing import is_plan
from .feeds import clock, make_large_town
from .running import Asker, Gateway, Reply, target

Look = Callable[[object, str], None]
CLIENTS, SECONDS, KILLS = 50, 20.0, 2
# A reply that takes longer is lost. The gateway refuses a question after ten seconds, so this holds on a busy machine too.
PATIENCE = 30.0
QUESTIONS = 100
# The questions leave from the first stops, whose trees are built early, and from the last ones. One worker takes about a minute for all
# trees of the town over these days, so it builds trees to the end of the time.
STOPS, SOURCES, LAST = 2_000, 120, 20
DAYS = "14"
TICKS = os.sysconf("SC_CLK_TCK")


@dataclass(frozen=True)
class Asked:
    """A question by its number, when it was asked and replied to, and the reply."""

    number: int
    since: float
    until: float
    status: int
    retry: str | None
    content: bytes


def ask_all(host: str, targets: list[str], end: float, draw: random.Random, lost: list[str]) -> list[Asked]:
    """One client: asks one question after the other on one connection until the time is over."""
    connection, asked = http.client.HTTPConnection(host, timeout=PATIENCE), []
    while time.monotonic() < end:
        number, since = draw.randrange(len(targets)), time.monotonic()
        try:
            connection.request("GET", targets[number])
            reply = Reply(connection.getresponse())
        except (OSError, http.client.HTTPException) as error:
            lost.append(repr(error))
            connection.close()
            continue
        asked.append(Asked(number, since, time.monotonic(), reply.status, reply.headers["Retry-After"], reply.content))
    connection.close()
    return asked


def kill_planner(gateway: Gateway, end: float, killed: list[int]) -> None:
    """Kills `tp serve` at even times before the end."""
    pause = (end - time.monotonic()) / (KILLS + 1)
    for _ in range(KILLS):
        time.sleep(pause)
        while (planner := gateway.planner()) is None and time.monotonic() < end:
            time.sleep(0.1)
        if planner is not None:
            os.kill(planner, signal.SIGKILL)
            killed.append(planner)


def run_clients(gateway: Gateway, targets: list[str], draw: random.Random) -> tuple[list[Asked], list[str], list[int]]:
    """What all clients asked, what was lost, and which processes were killed."""
    lost: list[str] = []
    killed: list[int] = []
    end = time.monotonic() + SECONDS
    killer = threading.Thread(target=kill_planner, args=(gateway, end, killed))
    killer.start()
    with concurrent.futures.ThreadPoolExecutor(CLIENTS) as pool:
        draws = [random.Random(draw.random()) for _ in range(CLIENTS)]
        lists = list(pool.map(lambda own: ask_all(gateway.host, targets, end, own, lost), draws))
    killer.join()
    return [asked for some in lists for asked in some], lost, killed


def look_at_answers(look: Look, asker: Asker, questions: list[tuple[str, str, str]], asked: list[Asked]) -> None:
    """Each answer is that of `tp ask` over the store that the gateway left."""
    answered = sorted({it.number for it in asked if it.status == 200})

    def answer(number: int) -> Any:
        start, end, at = questions[number]
        return asker.ask(start, end, "--at", at)

    with concurrent.futures.ThreadPoolExecutor(os.cpu_count()) as pool:
        answers = dict(zip(answered, pool.map(answer, answered)))
    right = {(number, content): answers[number] is not None and is_plan(json.loads(content), answers[number])
             for number, content in {(it.number, it.content) for it in asked if it.status == 200}}
    wrong = [it for it in asked if it.status == 200 and not right[it.number, it.content]]
    look(not wrong, f"{len(wrong)} answers are other than those of tp ask, as that to {questions[wrong[0].number] if wrong else None}")
    look(len(answered) > 20, f"only {len(answered)} questions were answered")


def look_at_refusals(look: Look, questions: list[tuple[str, str, str]], asked: list[Asked]) -> None:
    """What isn't answered is refused with 503 and a time to ask again; and never from a stop that had been answered from before."""
    answered: dict[str, float] = {}
    for it in asked:
        if it.status == 200:
            start = questions[it.number][0]
            answered[start] = min(it.until, answered.get(start, it.until))
    refused = [it for it in asked if it.status != 200]
    bad = [it for it in refused if it.status != 503 or not it.retry or not json.loads(it.content)["error"]]
    look(not bad, f"{len(bad)} replies have another status than 200 and 503, or no time to ask again")
    unstored = [it for it in refused if it.status == 503 and json.loads(it.content)["name"] == "NotStored"]
    gone = [it for it in unstored if it.since > answered.get(questions[it.number][0], float("inf"))]
    look(not gone, f"{len(gone)} questions were refused as not stored after an answer from the same stop")
    look(unstored, "no question was refused as not stored, so trees were not built meanwhile")


def busy_seconds() -> float:
    """The processor time that all processes of the machine have taken."""
    user, nice, system, _, _, *more = map(int, Path("/proc/stat").read_text().split("\n", 1)[0].split()[1:9])
    return (user + nice + system + sum(more)) / TICKS


def seconds_of(process: int | None) -> float:
    """The processor time of a process, and of those that it started and that have ended."""
    try:
        return sum(map(int, Path(f"/proc/{process}/stat").read_text().rpartition(")")[2].split()[11:15])) / TICKS
    except OSError:
        return 0.0


class OtherWork:
    """What all other processes took of the machine's processors, since this was made."""

    def __init__(self, gateway: Gateway) -> None:
        self._gateway, self._since = gateway, time.monotonic()
        self._own, self._busy = self._own_seconds(), busy_seconds()

    def share(self) -> float:
        own = self._own_seconds() - self._own
        spent = (time.monotonic() - self._since) * (os.cpu_count() or 1)
        return max(0.0, busy_seconds() - self._busy - own) / spent

    def _own_seconds(self) -> float:
        return sum(map(seconds_of, (os.getpid(), self._gateway.process.pid, self._gateway.planner())))


def report(asked: list[Asked], other: float, stored: int, stops: int) -> None:
    """Prints what was measured, for a reader to judge: on an idle machine 50 ms at the 99th of a hundred, and trees left to build."""
    times = sorted(it.until - it.since for it in asked)
    answers = sum(it.status == 200 for it in asked)
    shares = [f"{name} {times[min(int(len(times) * share), len(times) - 1)] * 1000:.1f} ms" for name, share in
            (("50th of a hundred", 0.5), ("99th", 0.99), ("slowest", 1.0))]
    counts = f"{len(asked)} replies, {answers} of them answers"
    print(f"{CLIENTS} clients, {SECONDS:.0f} s: {counts}; {', '.join(shares)}; {stored} of {stops} trees stored")
    print(f"other work took {other:.0%} of the processors meanwhile")


def look_at_load(look: Look, program: str, room: Path, draw: random.Random) -> None:
    """Questions from stops whose trees come early, and from some whose trees come last."""
    ids = make_large_town(room / "large", STOPS, draw)
    words, store = ["--feed", str(room / "large"), "--date", "20240102", "--days", DAYS, "--zone", "UTC0"], room / "load"
    questions = [(draw.choice(ids[:SOURCES]), draw.choice(ids), clock(draw.randrange(5 * 3600, 22 * 3600))) for _ in range(QUESTIONS)]
    questions += [(draw.choice(ids[-LAST:]), draw.choice(ids), "08:00:00") for _ in range(LAST)]
    targets = [target("plan", fromPlace=start, toPlace=end, time=f"2024-01-02T{at}Z") for start, end, at in questions]
    gateway = Gateway(program, *words, "--store", str(store), "--workers", "1", "--straight")
    look(gateway.wait(False), "the gateway did not become ready")
    other_work = OtherWork(gateway)
    asked, lost, killed = run_clients(gateway, targets, draw)
    other = other_work.share()
    look(len(killed) == KILLS, f"only {len(killed)} times was tp killed")
    look(not lost, f"{len(lost)} replies were lost, as by {lost[:1]}")
    look(gateway.wait(False), "the gateway is not ready after the load")
    state = gateway.get("/api/v1/health").json
    report(asked, other, state["stored"], state["stops"])
    look(state["starts"] == KILLS + 1, f"tp was started {state['starts']} times")
    status, _ = gateway.end()
    look(status == 0, f"SIGTERM ended with status {status}")
    look_at_refusals(look, questions, asked)
    look_at_answers(look, Asker(program, words, store), questions, asked)
