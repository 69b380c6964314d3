"""What the gateway is started with, and the limits that it keeps."""
import datetime
from dataclasses import dataclass
from pathlib import Path

SECONDS_OF_A_QUESTION = 10.0
SECONDS_OF_A_SEARCH = 5.0
SECONDS_OF_THE_END = 10.0
# More than a question or a search takes: while the planner computes, nothing moves on its connection. A request must come in this time.
SECONDS_OF_A_STILL_CONNECTION = 15
REQUESTS_AT_ONCE = 256
CONNECTIONS = 1_024
# Of the connections beyond these, some stay to be refused with words, and all others are ended. Few are taken at a time, so that they can't
# use up the files that the process may have open.
CONNECTIONS_TO_REFUSE = 64
CONNECTIONS_AT_A_TIME = 256
OPEN_FILES = 4_096
SEARCHES_AT_ONCE = 4
QUESTIONS_IN_THE_PIPE = 2_048
BYTES_OF_A_PATH = 1_024
BYTES_OF_A_QUERY = 8_192
BYTES_OF_HEADERS = 16_384
BYTES_OF_AN_ID = 2_048
CHARACTERS_OF_A_TEXT = 200
BYTES_OF_A_REPLY = 16 * 1024 * 1024


@dataclass(frozen=True)
class Settings:
    """The feed, the store, the covered days, and where to listen."""

    program: Path
    feed: Path
    store: Path
    date: datetime.date
    days: int
    zone: str
    rides: int
    default_walk: int
    workers: int
    host: str
    port: int
    tiles: str | None
    attribution: str | None
    straight: bool

    @property
    def last_date(self) -> datetime.date:
        return self.date + datetime.timedelta(days=self.days - 1)

    def serve_words(self, store: Path, form: str) -> list[str]:
        """The command that answers questions line by line, over a store and in a format."""
        options = {
            "--feed": self.feed, "--date": f"{self.date:%Y%m%d}", "--days": self.days, "--zone": self.zone, "--rides": self.rides,
            "--default-walk": self.default_walk, "--store": store, "--workers": self.workers, "--format": form,
        }
        return [str(self.program), "serve", *(f"{name}={value}" for name, value in options.items())]

    def stops_words(self, *more: str) -> list[str]:
        """The command that looks for stops; a text after `--` is never taken for an option."""
        return [str(self.program), "stops", f"--feed={self.feed}", *more]
