"""How the gateway starts, ends, and lives with a `tp` that ends."""
import contextlib
import http.client
import os
import signal
import socket
import subprocess
import threading
import time
from collections.abc import Callable
from pathlib import Path

from gateway.processes import allow_open_files

from .bad_input import DEMO, TIME
from .running import WEB, Gateway, is_alive, tp

Look = Callable[[object, str], None]
RUN = str(WEB / "run")
AT_ONCE, HELD = 256, 1_088


def run(*words: str) -> tuple[int, str]:
    """The status of web/run with words by which it ends, and what stands on standard error."""
    ran = subprocess.run(words, capture_output=True, text=True, timeout=60, check=False)
    return ran.returncode, ran.stderr


def look_at_starts(look: Look, program: str, room: Path) -> None:
    """What ends before a question, with the status that README.md has for it."""
    here = ["--port", "0", "--program", program, "--date", "20240102"]
    status, errors = run(RUN, *here, "--feed", str(room / "nowhere"), "--store", str(room / "s1"))
    # The fault comes from `tp stops` as lines, with what to do, or from `tp serve` as JSON: whichever is first.
    lines = ["tp: F1 MissingFile stops.txt row 0", f'There is no folder "{room / "nowhere"}".']
    look(status == 1 and errors.splitlines() in (lines, lines[:1]), f"without a feed: {status}, {errors!r}")
    (room / "other").write_bytes(b"\xa5 is the first byte of this text")
    status, errors = run(RUN, *here, "--feed", str(DEMO), "--store", str(room / "other"))
    is_reported = errors.startswith("tp: Z1 NotAStore\n") and str(room / "other") in errors
    look(status == 4 and is_reported, f"with a file that is no store: {status}, {errors!r}")
    status, errors = run(RUN, *here, "--feed", str(DEMO), "--program", str(room / "none"))
    look(status == 70 and "bin/prove" in errors, f"without the program: {status}, {errors!r}")
    status, errors = run("/usr/bin/python3", "-S", RUN, *here, "--feed", str(DEMO))
    look(status == 69 and "apt-get install" in errors and "python3-starlette" in errors, f"without packages: {status}, {errors!r}")
    wrong = {"--date": "20240230", "--days": "15", "--zone": "Europe/Berlin", "--tiles": "x:{x}{y}{z}", "--port": "65536", "--workers": "0"}
    for name, value in wrong.items():
        status, errors = run(RUN, *here, "--feed", str(DEMO), name, value)
        look(status == 2 and name in errors, f"{name} {value}: {status}, {errors!r}")


def is_reached(host: str, port: int) -> bool:
    try:
        socket.create_connection((host, port), timeout=5).close()
    except OSError:
        return False
    return True


def kill_planner(gateway: Gateway) -> int:
    """Kills `tp serve`, and gives the number of its process."""
    planner = gateway.planner() or 0
    if planner:
        os.kill(planner, signal.SIGKILL)
    return planner


def look_at_an_end(look: Look, program: str, room: Path) -> None:
    """A `tp` that is killed is started again, and SIGTERM ends both; the store then has all trees."""
    options = ["--feed", str(DEMO), "--date", "20240102", "--store", str(room / "life")]
    gateway = Gateway(program, *options)
    look(gateway.wait(True), "the gateway has not stored all trees")
    port = int(gateway.host.rsplit(":", 1)[1])
    look_at_speed(look, gateway)
    look(is_reached("127.0.0.1", port) and not is_reached("127.0.0.2", port), "it listens at another address than 127.0.0.1")
    for _ in range(3):
        killed = kill_planner(gateway)
        reply = gateway.get(f"/api/v1/plan?fromPlace=A&toPlace=D&{TIME}")
        look(reply.status == 200 and len(reply.json["itineraries"]) == 2, f"after a kill the answer has status {reply.status}")
        look(gateway.planner() not in (None, 0, killed), "tp serve was not started again")
    look(gateway.get("/api/v1/health").json["starts"] == 4, "the starts of tp serve are not counted")
    kill_planner(gateway)
    is_back = gateway.wait_for("starts", 5) and gateway.wait_for("status", "ok")
    look(is_back, "after a kill tp isn't started again before a question is asked")
    unread = unread_pages(gateway)
    look(gateway.wait_for("lines", "through stops"), "there is no second tp serve for lines")
    planner, drawer = gateway.planner(), gateway.planner(b"geojson")
    status, errors = gateway.end()
    look(status == 0, f"SIGTERM ended with status {status}, beside a client that doesn't read")
    unread.close()
    look(errors.count("tp ended with status -9") == 4, f"the kills are reported as {errors!r}")
    look(not is_alive(planner) and not is_alive(drawer), "tp serve lives on")
    look(not list(room.glob(".life-*")), "the copy of the store is still there")
    look(sorted(tp(program, "list", *options)[1].split()) == list("ABCDE"), "the store lacks trees")


def connected(gateway: Gateway, data: bytes = b"") -> socket.socket:
    """A connection on which some bytes are sent."""
    connection = socket.create_connection(("127.0.0.1", int(gateway.host.rsplit(":", 1)[1])), timeout=60)
    connection.sendall(data)
    return connection


def reply_on(connection: socket.socket) -> bytes:
    """All bytes that come on a connection until it is closed, which this client doesn't do."""
    with connection, connection.makefile("rb") as stream:
        try:
            return stream.read()
        except ConnectionResetError:
            return b""
        except TimeoutError:
            return b"it is still open"


def unread_pages(gateway: Gateway) -> socket.socket:
    """A connection on which large files are asked for, and nothing is read."""
    return connected(gateway, b"GET /leaflet/leaflet.js HTTP/1.1\r\nhost: x\r\n\r\n" * 100)


def look_at_speed(look: Look, gateway: Gateway) -> None:
    """On a connection that is kept, a reply isn't held back until the one before it was acknowledged. That would take 40 ms each time, but
    for the first few; so the least of the later times shows it on a busy machine too."""
    connection, times = gateway.connect(), []
    for _ in range(50):
        since = time.monotonic()
        connection.request("GET", "/api/v1/health")
        connection.getresponse().read()
        times.append(time.monotonic() - since)
    connection.close()
    look(min(times[25:]) < 0.03, f"each of 25 replies took {min(times[25:]) * 1000:.0f} ms or more")


def script(path: Path, text: str) -> str:
    """A program in place of `tp`, in shell."""
    path.write_text(f"#!/bin/sh\n{text}\n")
    path.chmod(0o755)
    return str(path)


def look_at_a_fatal_question(look: Look, program: str, room: Path) -> None:
    """A question at which `tp` ends is asked twice and then refused; the others are answered."""
    ends = "while IFS= read -r line; do case $line in *FATAL*) break ;; esac; printf '%s\\n' \"$line\"; done"
    fragile = script(room / "fragile", f'[ "$1" = serve ] || exec {program} "$@"\n({ends}) | exec {program} "$@"')
    gateway = Gateway(fragile, "--feed", str(DEMO), "--date", "20240102", "--store", str(room / "fragile-store"))
    look(gateway.wait(True), "the gateway with a fragile tp has not stored all trees")
    reply = gateway.get(f"/api/v1/plan?fromPlace=FATAL&toPlace=D&{TIME}")
    look(reply.status == 503 and reply.headers["Retry-After"], f"a question at which tp ends has status {reply.status}")
    look(gateway.get(f"/api/v1/plan?fromPlace=A&toPlace=D&{TIME}").status == 200, "the question after it isn't answered")
    starts = gateway.get("/api/v1/health").json["starts"]
    look(starts == 3, f"tp was started {starts} times")
    look(gateway.end()[0] == 0, "the gateway with a fragile tp did not end with status 0")


def is_answered(gateway: Gateway) -> bool:
    """Whether a request gets an answer of the gateway within a time."""
    end = time.monotonic() + 30
    while time.monotonic() < end:
        with contextlib.suppress(OSError, http.client.HTTPException):
            if b'"stops"' in gateway.get("/api/v1/health").content:
                return True
    return False


def look_at_connections(look: Look, gateway: Gateway) -> None:
    """More connections than are held, on which nothing is asked: the last are ended at once. On the others requests are refused, until
    some have gone."""
    allow_open_files()
    connections = [connected(gateway) for _ in range(HELD + 20)]
    look(all(reply_on(it) == b"" for it in connections[-10:]), "a connection that is one too many isn't ended")
    connections[0].sendall(b"GET /api/v1/health HTTP/1.1\r\nhost: x\r\n\r\n")
    line = reply_on(connections[0])
    look(line.startswith(b"HTTP/1.1 503"), f"a request beside too many connections is answered with {line[:100]!r}")
    for it in connections:
        it.close()
    look(is_answered(gateway), "after the connections are gone no request is answered")


def send_slowly(connection: socket.socket) -> None:
    """Sends a request whose end doesn't come, a byte each second, until the connection is closed."""
    with contextlib.suppress(OSError):
        for byte in b"GET / HTTP/1.1\r\n" + b"x" * 60:
            connection.sendall(bytes([byte]))
            time.sleep(1)


def look_at_limits(look: Look, program: str, room: Path) -> None:
    """More questions at once than are allowed, of a `tp` that never replies: each is refused, at once or after ten seconds. Connections on
    which no request comes in time are closed."""
    silent = script(room / "silent", f'[ "$1" = serve ] || exec {program} "$@"\nexec sleep 600')
    gateway = Gateway(silent, "--feed", str(DEMO), "--date", "20240102", "--store", str(room / "silent-store"))
    still, slow = connected(gateway), connected(gateway)
    threading.Thread(target=send_slowly, args=(slow,), daemon=True).start()
    question = f"GET /api/v1/plan?fromPlace=A&toPlace=D&{TIME} HTTP/1.1\r\nhost: x\r\nconnection: close\r\n\r\n".encode()
    replies = [reply_on(it) for it in [connected(gateway, question) for _ in range(AT_ONCE + 40)]]
    look(all(it.startswith(b"HTTP/1.1 503") and b"retry-after" in it.lower() for it in replies), "a question isn't refused with 503")
    counts = [sum(text in it for it in replies) for text in (b"too many requests at once", b"tp is starting")]
    look(counts == [40, AT_ONCE], f"{counts[0]} questions were too many, and {counts[1]} not replied to")
    health = gateway.get("/api/v1/health")
    is_refused = health.status == 503 and health.headers["Retry-After"]
    look(is_refused, f"the health of a gateway whose tp never replies has status {health.status}")
    look(reply_on(still) == b"", "a connection on which nothing moves isn't closed")
    look(reply_on(slow) == b"", "a connection on which a request comes byte by byte isn't closed")
    look_at_connections(look, gateway)
    look(gateway.end() == (0, ""), "a gateway whose tp never replies did not end with status 0 and without a word")


def look_at_life(look: Look, program: str, room: Path) -> None:
    look_at_starts(look, program, room)
    look_at_an_end(look, program, room)
    look_at_a_fatal_question(look, program, room)
    look_at_limits(look, program, room)
