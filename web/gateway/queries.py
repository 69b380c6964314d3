"""The parameters of a request. Each is tested before `tp` sees it."""
import urllib.parse
from dataclasses import dataclass

from .refusals import Refusal, bad
from .settings import BYTES_OF_AN_ID, CHARACTERS_OF_A_TEXT

PARAMETERS = 32
MOST_ITINERARIES = 100
# Parameters of MOTIS that would change which journeys are right, and the values by which they don't. No journey has more than 7 changes.
UNCHANGING = {
    "arriveBy": {"false"}, "via": {""}, "pageCursor": {""}, "transitModes": {"", "TRANSIT"}, "maxTravelTime": {""},
    "maxTransfers": {"", *map(str, range(7, 100))}, "minTransferTime": {"", "0"}, "additionalTransferTime": {"", "0"},
    "transferTimeFactor": {"", "1", "1.0"}, "pedestrianProfile": {"", "FOOT"}, "requireBikeTransport": {"false"},
    "requireCarTransport": {"false"},
}


@dataclass(frozen=True)
class PlanQuery:
    """What plan is asked."""

    start: str
    end: str
    time: str | None
    count: int | None


def parameters_of(query: bytes) -> dict[str, str]:
    """The parameters by name: UTF-8 without control characters, each once."""
    try:
        pairs = urllib.parse.parse_qsl(query.decode("ascii"), keep_blank_values=True, errors="strict", max_num_fields=PARAMETERS)
    except UnicodeError as error:
        raise Refusal(400, "BadQuery", "the query is not UTF-8 in percent-encoding") from error
    except ValueError as error:
        raise Refusal(400, "BadQuery", f"the query has more than {PARAMETERS} parameters") from error
    found: dict[str, str] = {}
    for name, value in pairs:
        if not is_clean(name) or name in found:
            raise Refusal(400, "BadQuery", "a parameter stands twice, or its name has control characters")
        if not is_clean(value):
            raise bad(name, "it has control characters")
        found[name] = value
    return found


def is_clean(text: str) -> bool:
    """Whether a text has no control characters (C0, delete, C1)."""
    return not any(character < " " or "\x7f" <= character <= "\x9f" for character in text)


def stop_id(found: dict[str, str], name: str) -> str:
    """The id of a stop, which is there, and not too long."""
    value = found.get(name, "")
    if not value:
        raise bad(name, "it must be the id of a stop or a station")
    if len(value.encode()) > BYTES_OF_AN_ID:
        raise bad(name, f"it has more than {BYTES_OF_AN_ID} bytes")
    return value


def count_of(found: dict[str, str], name: str) -> int | None:
    """A count, which need not be there."""
    value = found.get(name)
    if value is None:
        return None
    if not (value.isascii() and value.isdigit() and len(value) <= 3 and 1 <= int(value) <= MOST_ITINERARIES):
        raise bad(name, f"it must be a whole number from 1 to {MOST_ITINERARIES}")
    return int(value)


def plan_query(query: bytes) -> PlanQuery:
    """The parameters of plan. What isn't offered is refused if it would change the answer, and ignored if not."""
    found = parameters_of(query)
    for name, values in UNCHANGING.items():
        if name in found and found[name] not in values:
            raise Refusal(400, "NotOffered", f"{name}: a value that would change the answer is not offered")
    return PlanQuery(stop_id(found, "fromPlace"), stop_id(found, "toPlace"), found.get("time"), count_of(found, "numItineraries"))


def text_of(query: bytes) -> str:
    """The text of geocode."""
    text = parameters_of(query).get("text", "").strip()
    if not text:
        raise bad("text", "it must be a part of a stop's name or id")
    if len(text) > CHARACTERS_OF_A_TEXT:
        raise bad("text", f"it has more than {CHARACTERS_OF_A_TEXT} characters")
    return text
