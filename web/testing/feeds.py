"""Feeds that are made up for the tests."""
import csv
import random
from pathlib import Path
from typing import Any

WEEK = ("monday", "tuesday", "wednesday", "thursday", "friday", "saturday", "sunday")
# Ids and names as strangers write them.
ODD_IDS = ['a "b"', "é", "e\\f", "x&y=z", "../../etc/passwd", "--all", "h, i", "100%25", "+1 2", "שלום", "q?r#s", "$(id)"]
NAMES = ["Café du Port", "Rathaus", "Am \"Tor\"", "Éclair", "St. Paul's", "Nord & Süd", "<b>Tor</b>", "Ωmega", ""]
Rows = list[tuple[Any, ...]]


def clock(seconds: int) -> str:
    return f"{seconds // 3600:02}:{seconds // 60 % 60:02}:{seconds % 60:02}"


def write(folder: Path, name: str, rows: Rows) -> None:
    with open(folder / name, "w", encoding="utf-8", newline="") as file:
        csv.writer(file).writerows(rows)


def write_week(folder: Path) -> None:
    rows: Rows = [("service_id", *WEEK, "start_date", "end_date"), ("DAILY", *[1] * 7, "20240101", "20241231")]
    write(folder, "calendar.txt", rows)


def write_courses(folder: Path, ways: list[list[str]], trips_of_a_way: int, draw: random.Random) -> None:
    """Writes trips over ways through stops, at any time of a day and the night after it."""
    trips: Rows = [("trip_id", "service_id", "route_id", "trip_headsign", "trip_short_name")]
    calls: Rows = [("trip_id", "stop_id", "stop_sequence", "arrival_time", "departure_time")]
    for course, way in enumerate(ways):
        for number in range(trips_of_a_way):
            trip, now = f"T{course}-{number}", draw.randrange(4 * 3600, 26 * 3600)
            route, headsign = f"R{course % 7}" if course % 5 else "", f"to {way[-1]}" if course % 2 else ""
            trips.append((trip, "DAILY", route, headsign, "17" if number == 1 else ""))
            for place, stop in enumerate(way):
                calls.append((trip, stop, place, clock(now), clock(now + 20)))
                now += draw.randrange(120, 900)
    write(folder, "trips.txt", trips)
    write(folder, "stop_times.txt", calls)
    routes: Rows = [("route_id", "route_short_name", "route_long_name"), *[(f"R{n}", n if n % 2 else "", f"Line {n}") for n in range(6)]]
    write(folder, "routes.txt", routes)


def make_odd_town(folder: Path, draw: random.Random) -> list[str]:
    """Writes a town with odd ids and names, and a station with three platforms. Gives the ids of its stops and its station."""
    folder.mkdir()
    ids = [f"S{number}" for number in range(20)] + ODD_IDS
    stops: Rows = [("stop_id", "stop_name", "stop_lat", "stop_lon", "location_type", "parent_station", "platform_code")]
    for stop in ids:
        place = ("", "") if draw.random() < 0.2 else (round(draw.uniform(-90, 90), 5), round(draw.uniform(-180, 180), 5))
        stops.append((stop, draw.choice(NAMES), *place, 0, "", ""))
    platforms = [f"ST{number}" for number in range(3)]
    stops.append(("ST", "Hauptbahnhof", 48.14, 11.56, 1, "", ""))
    stops += [(stop, "Hauptbahnhof", 48.14, 11.56, 0, "ST", stop[-1]) for stop in platforms]
    write(folder, "stops.txt", stops)
    write_courses(folder, [draw.sample(ids + platforms, draw.randint(3, 7)) for _ in range(16)], 12, draw)
    write_week(folder)
    walks: Rows = [("from_stop_id", "to_stop_id", "transfer_type", "min_transfer_time"), ("ST", "ST", 2, 120)]
    write(folder, "transfers.txt", walks + [(*draw.sample(ids, 2), 2, draw.randrange(30, 600)) for _ in range(25)])
    return [*ids, *platforms, "ST"]


def make_large_town(folder: Path, stops: int, draw: random.Random) -> list[str]:
    """Writes a town in which each stop has some courses. Gives the ids of its stops, in their order."""
    folder.mkdir()
    ids = [f"S{number}" for number in range(stops)]
    write(folder, "stops.txt", [("stop_id", "stop_name", "stop_lat", "stop_lon"), *[
        (stop, f"Stop {stop}", round(draw.uniform(48, 49), 5), round(draw.uniform(11, 12), 5)) for stop in ids]])
    ways = []
    for _ in range(stops // 3):
        first = draw.randrange(stops)
        ways.append([ids[(first + step * draw.randrange(1, 9)) % stops] for step in range(8)])
    write_courses(folder, [list(dict.fromkeys(way)) for way in ways], 48, draw)
    write_week(folder)
    return ids
