"""Why a request gets no answer: a status, a sentence, and a name for programs."""
from typing import Any

RETRY_SECONDS = 5


class Refusal(Exception):
    """A request that is refused; it becomes a response with a JSON body."""

    def __init__(self, status: int, name: str, error: str, stop: str | None = None, retry: int | None = None) -> None:
        super().__init__(error)
        self.status, self.name, self.error, self.stop, self.retry = status, name, error, stop, retry

    def body(self) -> dict[str, Any]:
        """The JSON body: `error` as MOTIS has it, and the fault's name, and the stop's id if there is one."""
        body: dict[str, Any] = {"error": self.error, "name": self.name}
        if self.stop is not None:
            body["stopId"] = self.stop
        return body

    def headers(self) -> dict[str, str]:
        return {} if self.retry is None else {"Retry-After": str(self.retry)}


def bad(parameter: str, error: str) -> Refusal:
    """The refusal of a parameter."""
    return Refusal(400, "BadParameter", f"{parameter}: {error}")


def busy(error: str, retry: int = 1) -> Refusal:
    """The refusal of what may be asked again after some seconds."""
    return Refusal(503, "Busy", error, retry=retry)


def refusal_of(fault: dict[str, Any]) -> Refusal:
    """The refusal that a fault of `tp serve` becomes."""
    name, stop = fault["name"], fault["id"]
    if name == "UnknownStop":
        return Refusal(400, name, "no stop or station has this id", stop)
    if name == "NotCovered":
        return Refusal(400, name, "the time is not within the covered days")
    if name == "NotStored":
        return Refusal(503, name, "the journeys from this stop are still being computed", stop, RETRY_SECONDS)
    if name == "BadLine":
        return Refusal(400, name, "this is not a question that tp reads")
    if name == "Memory":
        return Refusal(503, name, "there was no memory for this question", retry=RETRY_SECONDS)
    return Refusal(502, "BadReply", "tp replied with a fault that is not known here")
