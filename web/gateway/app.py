"""The ASGI application: the interface under /api/v1/, the page, and Leaflet's files."""
import contextlib
import urllib.parse
from collections.abc import AsyncIterator
from pathlib import Path

from starlette.applications import Starlette
from starlette.exceptions import HTTPException
from starlette.middleware import Middleware
from starlette.requests import Request
from starlette.responses import JSONResponse, Response
from starlette.routing import Mount, Route
from starlette.staticfiles import StaticFiles

from .guard import Guard, refused
from .motis import match_of
from .planner import Fail, Planner
from .queries import plan_query, text_of
from .refusals import RETRY_SECONDS, Refusal
from .settings import Settings

PAGE = Path(__file__).resolve().parent.parent / "page"
LEAFLET = Path("/usr/share/javascript/leaflet")


def image_source(tiles: str | None) -> str:
    """Where the page may load tiles from, as a source of a content security policy."""
    if tiles is None:
        return ""
    parts = urllib.parse.urlsplit(tiles)
    return f" {parts.scheme}://{parts.netloc.replace('{s}', '*')}"


def policy_of(settings: Settings) -> str:
    """What the page may load: its own files, and tiles."""
    images = f"img-src 'self' data:{image_source(settings.tiles)}"
    return f"default-src 'none'; script-src 'self'; style-src 'self'; connect-src 'self'; base-uri 'none'; form-action 'self'; {images}"


async def response_of(_: Request, error: Exception) -> Response:
    """The response that an exception becomes."""
    if isinstance(error, Refusal):
        return refused(error)
    if isinstance(error, HTTPException):
        name = {404: "NotFound", 405: "BadMethod"}.get(error.status_code, "BadRequest")
        return refused(Refusal(error.status_code, name, error.detail))
    return refused(Refusal(500, "Fault", "the gateway has a fault"))


class Handlers:
    """What is done at each address."""

    def __init__(self, planner: Planner, settings: Settings) -> None:
        self._planner, self._settings = planner, settings

    async def plan(self, request: Request) -> Response:
        return JSONResponse(await self._planner.plan(plan_query(request.scope["query_string"])))

    async def geocode(self, request: Request) -> Response:
        found = await self._planner.search.find(text_of(request.scope["query_string"]))
        return JSONResponse([match_of(stop, place) for place, stop in enumerate(found)])

    async def health(self, _: Request) -> Response:
        status, body = self._planner.health()
        return JSONResponse(body, status, {} if status == 200 else {"Retry-After": str(RETRY_SECONDS)})

    async def settings(self, _: Request) -> Response:
        return JSONResponse({"tiles": self._settings.tiles, "attribution": self._settings.attribution})


def application(settings: Settings, fail: Fail) -> Starlette:
    """The application over a planner, which lives as long as it does. `fail` takes a fault that ends the gateway."""
    planner = Planner(settings)
    handlers = Handlers(planner, settings)

    @contextlib.asynccontextmanager
    async def life(_: Starlette) -> AsyncIterator[None]:
        planner.start(fail)
        yield
        await planner.close()

    return Starlette(
        routes=[
            Route("/api/v1/plan", handlers.plan), Route("/api/v1/geocode", handlers.geocode), Route("/api/v1/health", handlers.health),
            Route("/settings.json", handlers.settings),
            Mount("/leaflet", StaticFiles(directory=LEAFLET)), Mount("/", StaticFiles(directory=PAGE, html=True)),
        ],
        middleware=[Middleware(Guard, policy=policy_of(settings))],
        exception_handlers={Refusal: response_of, HTTPException: response_of, Exception: response_of},
        lifespan=life,
    )
