"""Random questions, asked of the gateway and of `tp ask`; and texts, asked of geocode and of `tp stops`."""
import concurrent.futures
import datetime
import os
import random
import re
import zoneinfo
from collections.abc import Callable
from pathlib import Path

from .comparing import is_plan
from .feeds import make_odd_town
from .running import Asker, Gateway, target, tp

RULE, ZONE = "CET-1CEST,M3.5.0,M10.5.0/3", zoneinfo.ZoneInfo("Europe/Berlin")
# Three days, within which summer time begins; the second and the third start by the noon of each.
FIRST, DAYS = datetime.datetime(2024, 3, 30, tzinfo=ZONE), 3
FALLS_BACK = datetime.datetime(2024, 10, 26, tzinfo=ZONE)
TEXTS = ["s", "S1", "CAFE", "é", "rat", "haupt", "--all", "$(id)", "../", "a \"b\"", "ω", "<b>", "nothing at all", "\\", "&", "%", "+", "ל"]
Look = Callable[[object, str], None]


def options(feed: Path, first: datetime.datetime) -> list[str]:
    return ["--feed", str(feed), "--date", f"{first:%Y%m%d}", "--days", str(DAYS), "--zone", RULE]


def service_time(moment: datetime.datetime, first: datetime.datetime) -> tuple[str, str] | None:
    """The covered day that has started at a moment, and the time since: a day starts 12 hours before its noon."""
    found = None
    for number in range(DAYS):
        day = first.date() + datetime.timedelta(days=number)
        noon = datetime.datetime(day.year, day.month, day.day, 12, tzinfo=ZONE)
        seconds = int(moment.timestamp() - noon.timestamp()) + 43_200
        if seconds >= 0:
            found = f"{day:%Y%m%d}", f"{seconds // 3600:02}:{seconds % 3600 // 60:02}:{seconds % 60:02}"
    return found


def time_text(moment: datetime.datetime, draw: random.Random) -> str:
    """A moment as RFC 3339, by one offset or another; or by the feed's clock."""
    offset = draw.choice([0, 60, 120, -210, 345, None])
    if offset is None and not moment.astimezone(ZONE).fold:
        return f"{moment.astimezone(ZONE):%Y-%m-%dT%H:%M:%S}"
    text = moment.astimezone(datetime.timezone(datetime.timedelta(minutes=offset or 0))).isoformat()
    return text.replace("+00:00", draw.choice(["Z", "+00:00"]))


def moments(first: datetime.datetime, count: int, draw: random.Random) -> list[datetime.datetime]:
    """Moments of the covered days by the local clock, at the hour when the clock changes more often than at others."""
    start, length = int(first.timestamp()), DAYS * 86_400 - 3_600
    change = int((first + datetime.timedelta(days=1)).timestamp())
    seconds = [change + draw.randrange(-7_200, 14_400) if draw.random() < 0.2 else start + draw.randrange(length) for _ in range(count)]
    return [datetime.datetime.fromtimestamp(second, datetime.UTC) for second in seconds]


def question(gateway: Gateway, asker: Asker, asked: tuple[str, str, str, str, str]) -> bool:
    """Whether the gateway's answer to a question is that of `tp ask`, which must leave at the same moment."""
    start, end, date, clock, text = asked
    answer, lines = (asker.ask(start, end, "--on", date, "--at", clock, form=form) for form in ("json", "geojson"))
    reply = gateway.get(target("plan", fromPlace=start, toPlace=end, time=text))
    if answer is None or reply.status != 200:
        return False
    moment = datetime.datetime.fromisoformat(text.upper())
    moment = moment.replace(tzinfo=ZONE) if moment.tzinfo is None else moment
    leaves = datetime.datetime.fromisoformat(answer["departure"]["iso"])
    return leaves.timestamp() == moment.timestamp() and is_plan(reply.json, answer, lines)


def look_at_questions(look: Look, program: str, room: Path, count: int, draw: random.Random) -> None:
    """Random questions. The gateway's store is one, and that of `tp ask` another, since `tp serve` has its store for itself."""
    ids = make_odd_town(room / "odd", draw)
    with concurrent.futures.ThreadPoolExecutor(os.cpu_count()) as pool:
        for name, first, share in (("spring", FIRST, 0.8), ("autumn", FALLS_BACK, 0.2)):
            words = options(room / "odd", first)
            gateway = Gateway(program, *words, "--store", str(room / f"gateway-{name}"))
            store = room / f"asked-{name}"
            look(tp(program, "build", *words, "--store", str(store))[0] == 0, "the store to compare with was not built")
            asker = Asker(program, words, store)
            look(gateway.wait(True) and gateway.wait_for("lines", "through stops"), "the gateway has not stored all trees")
            asked = []
            for moment in moments(first, int(count * share), draw):
                day = service_time(moment, first)
                if day is not None:
                    asked.append((draw.choice(ids), draw.choice(ids), *day, time_text(moment, draw)))
            for one, right in zip(asked, pool.map(lambda it: question(gateway, asker, it), asked)):
                look(right, f"{one} has another answer than tp ask gives")
            if name == "spring":
                look_at_texts(look, gateway, program, room / "odd", ids)
            status, errors = gateway.end()
            look((status, errors) == (0, ""), f"SIGTERM ended with status {status} and {errors!r}")


def plain(field: str) -> str:
    """A field as the feed has it: `tp stops` doubles backslashes."""
    return re.sub(r"\\\\", r"\\", field)


def look_at_texts(look: Look, gateway: Gateway, program: str, feed: Path, ids: list[str]) -> None:
    """Texts: the same stops in the same order, with the same names and positions."""
    for text in TEXTS + ids:
        status, out, _ = tp(program, "stops", "--feed", str(feed), "--", text)
        wanted = []
        for line in out.splitlines():
            if "\t" in line:
                stop, name, station, latitude, longitude = map(plain, line.split("\t"))
                place = [float(it) if it else None for it in (latitude, longitude)]
                wanted.append((stop, name or stop, station or None, *place))
        reply = gateway.get(target("geocode", text=text))
        found = [(it["id"], it["name"], it.get("parentId"), it.get("lat"), it.get("lon")) for it in reply.json]
        look((status, reply.status) == (0, 200) and found == wanted, f"geocode of {text!r} has {found} and tp stops {wanted}")
        look(all(it["type"] == "STOP" for it in reply.json), f"geocode of {text!r} has what is no stop")
