"""The gateway as its users run it, and `tp` beside it."""
import http.client
import json
import os
import resource
import subprocess
import time
import urllib.parse
from pathlib import Path
from typing import Any

WEB = Path(__file__).resolve().parent.parent
SECONDS = 120
# How many files a process may have open, if nobody allows it more.
FILES = 1_024


def tp(program: str, *words: str) -> tuple[int, str, str]:
    """The status of a command, and what it wrote on both streams."""
    ran = subprocess.run([program, *words], capture_output=True, timeout=SECONDS, check=False)
    return ran.returncode, ran.stdout.decode(), ran.stderr.decode()


class Asker:
    """`tp ask` over a store, which any number of processes may read at once."""

    def __init__(self, program: str, words: list[str], store: Path) -> None:
        self._program, self._words = program, [*words, f"--store={store}"]

    def ask(self, start: str, end: str, *more: str, form: str = "json") -> Any:
        """The answer in a format; none if there is none."""
        status, out, _ = tp(self._program, "ask", *self._words, f"--from={start}", f"--to={end}", "--format", form, *more)
        return json.loads(out) if status == 0 else None


class Reply:
    """A status, headers, and a body, which may be JSON."""

    def __init__(self, response: http.client.HTTPResponse) -> None:
        self.status, self.headers, self.content = response.status, response.headers, response.read()

    @property
    def json(self) -> Any:
        return json.loads(self.content)


def take_usual_limit() -> None:
    resource.setrlimit(resource.RLIMIT_NOFILE, (FILES, resource.getrlimit(resource.RLIMIT_NOFILE)[1]))


def words_of(process: str) -> list[bytes]:
    """The words that a process was started with; none if it has ended."""
    try:
        return Path(f"/proc/{process}/cmdline").read_bytes().split(b"\0")
    except OSError:
        return []


class Gateway:
    """A gateway of its own, on a port that is free. It may have as many files open as a shell allows."""

    def __init__(self, program: str, *options: str) -> None:
        words = [str(WEB / "run"), "--port", "0", "--program", program, *options]
        self.process = subprocess.Popen(words, stdout=subprocess.PIPE, stderr=subprocess.PIPE, text=True, preexec_fn=take_usual_limit)
        self.address = self.process.stdout.readline().strip() if self.process.stdout else ""
        self.host = urllib.parse.urlsplit(self.address).netloc

    def connect(self) -> http.client.HTTPConnection:
        return http.client.HTTPConnection(self.host, timeout=SECONDS)

    def get(self, target: str, method: str = "GET", headers: dict[str, str] | None = None, body: bytes | None = None) -> Reply:
        """The reply to a target as it stands, on a connection of its own."""
        connection = self.connect()
        try:
            connection.request(method, target, body, headers or {})
            return Reply(connection.getresponse())
        finally:
            connection.close()

    def wait(self, whole: bool) -> bool:
        """Whether the planner is ready within a time; whole: with all trees."""
        end = time.monotonic() + SECONDS
        while time.monotonic() < end and self.process.poll() is None:
            state = self.get("/api/v1/health").json
            if state["status"] == "ok" and (not whole or state["stored"] == state["stops"]):
                return True
            time.sleep(0.2)
        return False

    def wait_for(self, name: str, value: str | int) -> bool:
        """Whether the health has a value within a time."""
        end = time.monotonic() + SECONDS
        while time.monotonic() < end:
            if self.get("/api/v1/health").json[name] == value:
                return True
        return False

    def planner(self, form: bytes = b"json") -> int | None:
        """The number of the process of `tp serve` that replies in a format."""
        children = Path(f"/proc/{self.process.pid}/task/{self.process.pid}/children")
        for child in children.read_text().split():
            words = words_of(child)
            if words[1:2] == [b"serve"] and b"--format=" + form in words:
                return int(child)
        return None

    def end(self) -> tuple[int, str]:
        """Sends SIGTERM, and gives the status and what stands on standard error."""
        self.process.terminate()
        try:
            _, errors = self.process.communicate(timeout=SECONDS)
        except subprocess.TimeoutExpired:
            self.process.kill()
            _, errors = self.process.communicate()
        return self.process.returncode, errors


def target(path: str, **parameters: str) -> str:
    return f"/api/v1/{path}?{urllib.parse.urlencode(parameters)}"


def is_alive(process: int | None) -> bool:
    return os.path.exists(f"/proc/{process}")
