"""Bad input of every parameter, and what must be refused before `tp` sees it. Each status is worked by hand."""
import json
import socket
from collections.abc import Callable
from pathlib import Path

from .running import Gateway, Reply

Look = Callable[[object, str], None]
DEMO = Path(__file__).resolve().parent.parent.parent / "demo/feed-m"
TIME = "time=2024-01-02T08:00:00Z"
LONG = "x" * 2_049

PLANS = {
    # what is missing, empty, doubled or too long
    "": 400, f"fromPlace=A&{TIME}": 400, f"toPlace=D&{TIME}": 400, f"fromPlace=&toPlace=D&{TIME}": 400,
    f"fromPlace=A&fromPlace=B&toPlace=D&{TIME}": 400, "&".join(f"p{n}=1" for n in range(40)): 400,
    f"fromPlace={LONG}&toPlace=D&{TIME}": 400, f"fromPlace=A&toPlace={LONG}&{TIME}": 400,
    f"fromPlace={'x' * 2_048}&toPlace=D&{TIME}": 400, f"fromPlace={'x' * 8_200}&toPlace=D&{TIME}": 414,
    # ids that no stop has, among them paths, commands and positions
    **{f"{ends}={stop}&{TIME}": 400 for ends in ("toPlace=D&fromPlace", "fromPlace=A&toPlace") for stop in (
        "X", "a", "../../etc/passwd", "/etc/passwd", "%24(id)", "%60id%60", "--help", "48.1,11.5", "A%20", "A;id", "A%7Cid", "%22A%22")},
    # control characters, and bytes that are no UTF-8
    **{f"{ends}A{code}&{TIME}": 400 for ends in ("toPlace=D&fromPlace=", "fromPlace=A&toPlace=") for code in (
        "%00", "%09", "%0A", "%0D", "%1B", "%7F", "%C2%85", "%FF", "%C3", "%ED%A0%80")},
    f"fromPlace=A%09D%0920240102%0908:00:00%0AB&toPlace=D&{TIME}": 400, f"fromPlace=A&toPlace=D%0A&{TIME}": 400,
    "fromPlace=A&toPlace=D&time=2024-01-02T08:00:00Z%0A": 400, f"from%00Place=A&fromPlace=A&toPlace=D&{TIME}": 400,
    # times
    **{f"fromPlace=A&toPlace=D&time={text}": 400 for text in (
        "", "now", "8", "2024-01-02", "2024-01-02T08:00Z", "2024-01-02T8:00:00Z", "2024-01-02T24:00:00Z", "2024-01-02T08:60:00Z",
        "2024-01-02T08:00:60Z", "2024-02-30T08:00:00Z", "2024-13-02T08:00:00Z", "20240102T080000Z", "2024-01-02T08:00:00+01:00",
        "2024-01-02T08:00:00%2B1:00", "2024-01-02T08:00:00%2B25:00", "2024-01-02T08:00:00%2B01:60", "-2024-01-02T08:00:00Z", "1704182400",
        "2024-01-02T08:00:00ZZ", "%D9%A2%D9%A0%D9%A2%D9%A4-01-02T08:00:00Z", "2024-01-02T08:00:00." + "1" * 13 + "Z", "1e9", "NaN",
        "%22")},
    # days that are not covered
    **{f"fromPlace=A&toPlace=D&time={text}": 400 for text in (
        "2024-01-01T23:59:59Z", "2024-01-03T00:00:00Z", "2024-01-02T23:59:59.5Z", "0001-01-01T00:00:00%2B01:00",
        "9999-12-31T23:59:59-01:00", "0000-01-01T00:00:00Z", "2024-01-02T00:30:00%2B01:00")},
    # counts, and what isn't offered
    **{f"fromPlace=A&toPlace=D&{TIME}&numItineraries={text}": 400 for text in (
        "0", "-1", "101", "1.5", "x", "", "1e1", "%D9%A1", "9" * 30, "0x1")},
    **{f"fromPlace=A&toPlace=D&{TIME}&{more}": 400 for more in (
        "arriveBy=true", "via=B", "pageCursor=x", "maxTransfers=1", "maxTransfers=-1", "transitModes=BUS", "pedestrianProfile=WHEELCHAIR",
        "requireBikeTransport=true", "minTransferTime=5")},
    # what is right
    f"fromPlace=A&toPlace=D&{TIME}": 200, f"fromPlace=A&toPlace=D&{TIME}&numItineraries=5&arriveBy=false&via=&withFares=true": 200,
    f"fromPlace=A&toPlace=D&{TIME}&maxTransfers=14&pedestrianProfile=FOOT": 200,
    **{f"fromPlace=%41&toPlace=D&time={text}": 200 for text in (
        "2024-01-02t08:00:00z", "2024-01-02T09:30:00.25%2B01:30", "2024-01-02T00:00:00", "2024-01-02T23:59:59Z")},
}
TEXTS = {
    "": 400, "text=": 400, "text=%20": 400, "text=a&text=b": 400, f"text={'x' * 201}": 400, f"text={'x' * 200}": 200, "text=%00": 400,
    "text=a%0A": 400, "text=%1B[2J": 400, "text=%FF": 400, f"text={'x' * 9_000}": 414,
    "text=../../etc/passwd": 200, "text=--feed%3D/etc": 200,
    "text=%24(id)": 200, "text=a": 200, "text=-h": 200, "text=--": 200,
}
PATHS = {
    "/../../etc/passwd": 404, "/..%2f..%2fetc/passwd": 404, "/leaflet/../../../../etc/passwd": 404,
    "/leaflet/..%2f..%2f..%2fetc%2fpasswd": 404, "/%2e%2e/run": 404, "/..%5c..%5crun": 404, "//etc/passwd": 404, "/page.css%00": 404,
    "/gateway/app.py": 404, "/api/v1/": 404, "/api/v1/plan/x": 404, "/api/v2/plan": 404, f"/{'x' * 1_100}": 414, "/%ff": 404,
    "/": 200, "/page.js": 200, "/leaflet/leaflet.min.js": 200, "/settings.json": 200,
}


def is_refusal(reply: Reply, status: int) -> bool:
    """Whether a reply has the status, and a body in JSON that says why."""
    if reply.status != status or reply.headers["Content-Type"] != "application/json":
        return False
    body = reply.json
    return bool(body.get("error")) and bool(body.get("name"))


def look_at_targets(look: Look, gateway: Gateway, prefix: str, table: dict[str, int]) -> None:
    for target, status in table.items():
        reply = gateway.get(prefix + target)
        right = reply.status == 200 if status == 200 else is_refusal(reply, status)
        look(right, f"{prefix}{target[:80]} has status {reply.status} and not {status}, or does not say why: {reply.content[:200]!r}")
        look(b"root:" not in reply.content, f"{prefix}{target[:80]} has a file that is not the page's")


def raw(gateway: Gateway, data: bytes) -> bytes:
    """The first line of what comes back for bytes."""
    host, port = gateway.host.rsplit(":", 1)
    with socket.create_connection((host, int(port)), timeout=30) as connection:
        connection.sendall(data)
        return connection.makefile("rb").readline()


def look_at_requests(look: Look, gateway: Gateway) -> None:
    """Methods, bodies, headers and bytes that are no HTTP."""
    for method in ("POST", "PUT", "DELETE", "PATCH", "OPTIONS"):
        look(gateway.get("/api/v1/plan", method).status == 405, f"{method} isn't refused with 405")
    look(gateway.get("/api/v1/health", body=b"x" * 100).status == 413, "a body isn't refused with 413")
    look(gateway.get("/api/v1/health", "HEAD").status == 200, "HEAD isn't answered")
    for data in (b"\0\1\2\r\n\r\n", b"GET\r\n\r\n", b"GET /" + b"x" * 100_000 + b" HTTP/1.1\r\n\r\n",
                 b"GET / HTTP/1.1\r\nhost: x\r\nx: " + b"y" * 100_000 + b"\r\n\r\n", b"GET /\xff HTTP/1.1\r\nhost: x\r\n\r\n",
                 b"GET / HTTP/1.1\r\nhost: x\r\nno header at all\r\n\r\n", b"\x16\x03\x01\x02\0\x01\0\x01\xfc\r\n\r\n"):
        line = raw(gateway, data)
        look(not line or line.startswith(b"HTTP/1.1 4"), f"{data[:20]!r} is answered with {line!r}")
    for protocol in ("websocket", "h2c"):
        upgrade = {"Connection": "Upgrade, HTTP2-Settings", "HTTP2-Settings": "AAMAAABkAAQAAP__", "Upgrade": protocol}
        status = gateway.get("/api/v1/health", headers=upgrade).status
        look(status == 200, f"a request that may be upgraded to {protocol} has status {status}")
    headers = gateway.get("/api/v1/health").headers
    wanted = {"X-Content-Type-Options": "nosniff", "Access-Control-Allow-Origin": "*", "Access-Control-Expose-Headers": "Retry-After"}
    look({name: headers[name] for name in wanted} == wanted, f"the interface has the headers {dict(headers)}")
    look("script-src 'self'" in gateway.get("/").headers["Content-Security-Policy"], "the page has no policy")


def look_at_bad_input(look: Look, program: str, room: Path) -> None:
    """Over the demo feed, whose two journeys from A to D are worked by hand."""
    gateway = Gateway(program, "--feed", str(DEMO), "--date", "20240102", "--store", str(room / "demo"))
    look(gateway.wait(True), "the gateway over the demo feed has not stored all trees")
    planner = gateway.planner()
    look_at_targets(look, gateway, "/api/v1/plan?", PLANS)
    look_at_targets(look, gateway, "/api/v1/geocode?", TEXTS)
    look_at_targets(look, gateway, "", PATHS)
    look_at_requests(look, gateway)
    look(gateway.planner() == planner, "tp serve was started again while input was bad")
    answer = gateway.get(f"/api/v1/plan?fromPlace=A&toPlace=D&{TIME}").json
    found = [(it["startTime"], it["endTime"], it["transfers"], [leg["tripId"] for leg in it["legs"]]) for it in answer["itineraries"]]
    wanted = [("2024-01-02T08:05:00+00:00", "2024-01-02T09:00:00+00:00", 0, ["T3"]),
              ("2024-01-02T08:00:00+00:00", "2024-01-02T08:40:00+00:00", 1, ["T1", "T2"])]
    look(found == wanted, f"from A to D there is {found}")
    unknown = gateway.get(f"/api/v1/plan?fromPlace=A&toPlace=X&{TIME}").json
    look((unknown["name"], unknown["stopId"]) == ("UnknownStop", "X"), f"an unknown stop is refused as {json.dumps(unknown)}")
    status, errors = gateway.end()
    look((status, errors) == (0, ""), f"the gateway over the demo feed ended with status {status}, and its log has {errors[:200]!r}")
