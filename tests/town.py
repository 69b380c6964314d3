"""A made-up town, and the program over its feed: what tests/stopped and tests/served look at."""
import os
import subprocess
import sys

TOP = os.path.dirname(os.path.dirname(os.path.realpath(__file__)))
SEED = 20240102
STOPS = 60
COURSES = 60
TRIPS_OF_A_COURSE = 100
WALKS = 50
SECONDS = 60


class Looks:
    """Counts what was looked at, and prints what isn't right."""

    def __init__(self, test):
        self.test, self.passed, self.failed = test, 0, 0

    def __call__(self, right, what):
        self.passed, self.failed = self.passed + bool(right), self.failed + (not right)
        if not right:
            print(f"{self.test}: {what}")

    def closing(self):
        """Prints the last line, and gives the status."""
        print(f"{self.passed} passed, {self.failed} failed")
        return 1 if self.failed else 0


def program_of(words):
    """The program that the words name, or the one that is built here; the test ends if there is none."""
    program = os.path.realpath(words[0] if words else f"{TOP}/crates/tp/out/tp")
    if not os.access(program, os.X_OK):
        print(f"{program}: there is no such program: rt ci builds it, and bin/tp does")
        print("0 passed, 1 failed")
        sys.exit(2)
    return program


def clock(seconds):
    return f"{seconds // 3600:02}:{seconds // 60 % 60:02}:{seconds % 60:02}"


def write(folder, name, rows):
    with open(f"{folder}/{name}", "w", encoding="utf-8") as file:
        file.writelines(",".join(map(str, row)) + "\n" for row in rows)


def make_town(folder, draw):
    """Writes the feed of a town of stops on a square, with courses that wander over it. Trips of a course take different times, so that
    some overtake others; one walks between some stops that are near each other, and changes take time at some."""
    os.mkdir(folder)
    places = [(draw.random(), draw.random()) for _ in range(STOPS)]

    def distance(one, other):
        return abs(places[one][0] - places[other][0]) + abs(places[one][1] - places[other][1])

    def near(stop, count):
        return sorted((other for other in range(STOPS) if other != stop), key=lambda other: distance(stop, other))[:count]

    trips, calls = [("trip_id", "service_id")], [("trip_id", "stop_id", "stop_sequence", "arrival_time", "departure_time")]
    for course in range(COURSES):
        way = [draw.randrange(STOPS)]
        while len(way) < 8:
            way.append(draw.choice([stop for stop in near(way[-1], 12) if stop != way[-1]]))
        for number in range(TRIPS_OF_A_COURSE):
            trip, now, pace = f"T{course}-{number}", 18_000 + draw.randrange(68_400), draw.choice([1, 1, 1, 2])
            trips.append((trip, "DAILY"))
            for sequence, stop in enumerate(way):
                now += 60 + int(2_400 * distance(way[sequence - 1], stop)) * pace if sequence else 0
                calls.append((trip, f"S{stop}", sequence, clock(now), clock(now + 20)))
                now += 20
    walks = {}
    for _ in range(WALKS):
        stop = draw.randrange(STOPS)
        walks[f"S{stop}", f"S{draw.choice(near(stop, 5) + [stop])}"] = 30 + draw.randrange(600)
    week = ("monday", "tuesday", "wednesday", "thursday", "friday", "saturday", "sunday")
    write(folder, "stops.txt", [("stop_id",), *[(f"S{stop}",) for stop in range(STOPS)]])
    write(folder, "trips.txt", trips)
    write(folder, "stop_times.txt", calls)
    write(folder, "calendar.txt", [("service_id", *week, "start_date", "end_date"), ("DAILY", *[1] * 7, 20240101, 20241231)])
    write(folder, "transfers.txt", [("from_stop_id", "to_stop_id", "transfer_type", "min_transfer_time"),
                                    *[(one, other, 2, seconds) for (one, other), seconds in walks.items()]])


class Planner:
    """The program over the town's feed."""

    def __init__(self, program, room):
        self.program, self.room, self.feed = program, room, f"{room}/town"

    def words(self, command, *more):
        return [self.program, command, "--feed", self.feed, "--date", "20240102", *more]

    def run(self, command, *more, before=None):
        """The status, and what was written on both streams."""
        how = {"capture_output": True, "text": True, "timeout": SECONDS, "preexec_fn": before, "check": False}
        try:
            ran = subprocess.run(self.words(command, *more), **how)
        except subprocess.TimeoutExpired:
            return None, "", f"it had not ended after {SECONDS} seconds"
        return ran.returncode, ran.stdout, ran.stderr

    def build(self, store, workers, before=None):
        return self.run("build", "--store", store, "--workers", str(workers), before=before)

    def listed(self, store):
        """The stops that are stored, in order; none if the list isn't given."""
        status, out, err = self.run("list", "--store", store)
        return out.split() if (status, err) == (0, "") else None


def content(path):
    with open(path, "rb") as file:
        return file.read()


def parts(store, begun):
    """The header of a store's file and its sections, sorted: the gate, a length of four bytes and a tree each. None if the file isn't
    these and a closed gate. `begun` is how long the file of a store without a tree is."""
    bytes_of, at, sections = content(store), begun - 1, []
    header = bytes_of[:at]
    while bytes_of[at:at + 1] == b"\xa5":
        end = at + 5 + int.from_bytes(bytes_of[at + 1:at + 5], "big")
        sections.append(bytes_of[at:end])
        at = end
    return (header, sorted(sections)) if bytes_of[at:] == b"\0" else None


def whole():
    return {f"S{stop}" for stop in range(STOPS)}


def is_stored(stops):
    """Whether these are stops of the town, each once."""
    return stops is not None and len(set(stops)) == len(stops) and set(stops) <= whole()
