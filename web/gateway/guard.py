"""Limits that hold for each request, and headers that each response has."""
from starlette.datastructures import MutableHeaders
from starlette.responses import JSONResponse
from starlette.types import ASGIApp, Message, Receive, Scope, Send

from .queries import is_clean
from .refusals import Refusal, busy
from .settings import BYTES_OF_A_PATH, BYTES_OF_A_QUERY, BYTES_OF_HEADERS, REQUESTS_AT_ONCE

API = "/api/"


def refused(refusal: Refusal) -> JSONResponse:
    return JSONResponse(refusal.body(), refusal.status, refusal.headers())


class Guard:
    """Refuses requests that are too large or too many at once, and adds headers to responses."""

    def __init__(self, app: ASGIApp, policy: str) -> None:
        self._app, self._policy = app, policy
        self._running = 0

    async def __call__(self, scope: Scope, receive: Receive, send: Send) -> None:
        if scope["type"] != "http":
            await self._app(scope, receive, send)
            return
        refusal = self._refusal(scope)
        app = self._app
        if refusal is not None:
            app = refused(refusal)
        self._running += 1
        try:
            await app(scope, receive, self._with_headers(scope, send))
        finally:
            self._running -= 1

    def _refusal(self, scope: Scope) -> Refusal | None:
        """Why a request is refused before it is looked at."""
        headers = dict(scope["headers"])
        if scope["method"] not in ("GET", "HEAD"):
            return Refusal(405, "BadMethod", "only GET and HEAD are answered")
        if headers.get(b"content-length", b"0") != b"0" or b"transfer-encoding" in headers:
            return Refusal(413, "TooLarge", "a request has no body here")
        if len(scope["query_string"]) > BYTES_OF_A_QUERY or len(scope.get("raw_path") or b"") > BYTES_OF_A_PATH:
            return Refusal(414, "TooLarge", f"a path has at most {BYTES_OF_A_PATH} bytes, and a query at most {BYTES_OF_A_QUERY}")
        if sum(len(name) + len(value) for name, value in scope["headers"]) > BYTES_OF_HEADERS:
            return Refusal(431, "TooLarge", f"the headers have at most {BYTES_OF_HEADERS} bytes")
        if not is_clean(scope["path"]):
            return Refusal(404, "NotFound", "a path has no control characters")
        if self._running >= REQUESTS_AT_ONCE:
            return busy("too many requests at once")
        return None

    def _with_headers(self, scope: Scope, send: Send) -> Send:
        async def send_with_headers(message: Message) -> None:
            if message["type"] == "http.response.start":
                headers = MutableHeaders(scope=message)
                headers["X-Content-Type-Options"] = "nosniff"
                headers["Referrer-Policy"] = "strict-origin"  # public servers of tiles want the name of the site that asks
                headers["Content-Security-Policy"] = self._policy
                if message["status"] == 405:
                    headers["Allow"] = "GET, HEAD"
                if scope["path"].startswith(API):
                    headers["Access-Control-Allow-Origin"] = "*"
                    headers["Access-Control-Expose-Headers"] = "Retry-After"
                    headers["Cache-Control"] = "no-store"
            await send(message)

        return send_with_headers
