"""Listens, and answers until SIGTERM or SIGINT."""
import asyncio
import signal
import socket
import sys
from types import FrameType
from typing import Any

import h11
import uvicorn
from uvicorn.protocols.http.h11_impl import H11Protocol

from .app import application
from .processes import allow_open_files
from .settings import (
    CONNECTIONS, CONNECTIONS_AT_A_TIME, CONNECTIONS_TO_REFUSE, SECONDS_OF_A_STILL_CONNECTION, SECONDS_OF_THE_END, Settings)


def listening(host: str, port: int) -> socket.socket:
    """A socket at the address; OSError if there can be none. Its protocol is named, since asyncio sends small packets at once (TCP_NODELAY)
    only then."""
    listener = socket.socket(socket.AF_INET6 if ":" in host else socket.AF_INET, socket.SOCK_STREAM, socket.IPPROTO_TCP)
    try:
        listener.setsockopt(socket.SOL_SOCKET, socket.SO_REUSEADDR, 1)
        listener.bind((host, port))
        listener.listen(CONNECTIONS_AT_A_TIME)
    except OSError:
        listener.close()
        raise
    return listener


def address_of(listener: socket.socket) -> str:
    host, port = listener.getsockname()[:2]
    return f"http://[{host}]:{port}/" if ":" in host else f"http://{host}:{port}/"


class PlainHttp(h11.Connection):
    """HTTP whose server stays with it: a wish to upgrade to another protocol is ignored (RFC 9110, 7.8). Uvicorn refuses the request."""

    def next_event(self) -> Any:
        event = super().next_event()
        if isinstance(event, h11.Request) and any(name == b"upgrade" for name, _ in event.headers):
            headers = [(name, value) for name, value in event.headers if name not in (b"connection", b"upgrade")]
            return h11.Request(method=event.method, target=event.target, headers=headers, http_version=event.http_version)
        return event


class Connection(H11Protocol):
    """A connection that is ended if there are too many, or if nothing moves on it for a time: no whole request comes, and the client takes
    nothing of a response. Uvicorn by itself holds any number of them, and waits without end for requests and for a client to read."""

    def __init__(self, *args: Any, **more: Any) -> None:
        super().__init__(*args, **more)
        self.conn = PlainHttp(h11.SERVER)

    def connection_made(self, transport: asyncio.Transport) -> None:
        super().connection_made(transport)
        self._watch(None)
        if len(self.connections) > CONNECTIONS + CONNECTIONS_TO_REFUSE:
            transport.abort()

    def connection_lost(self, exc: Exception | None) -> None:
        self._watcher.cancel()
        super().connection_lost(exc)

    def timeout_keep_alive_handler(self) -> None:
        """Closes a connection between requests. Uvicorn's timer goes on if a request had come before the response to the last one ended."""
        if self.cycle is None or self.cycle.response_complete:
            super().timeout_keep_alive_handler()

    def _watch(self, before: tuple[object, int] | None) -> None:
        """Ends the connection if its last request and what waits to be read are as they were at the look before this one."""
        now = self.cycle, self.transport.get_write_buffer_size()
        if now == before:
            self.transport.abort()
        self._watcher = asyncio.get_running_loop().call_later(SECONDS_OF_A_STILL_CONNECTION, self._watch, now)


class Server(uvicorn.Server):
    """A server that ends the connections of clients who don't read, once it has waited for them."""

    async def shutdown(self, sockets: list[socket.socket] | None = None) -> None:
        timer = asyncio.get_running_loop().call_later(SECONDS_OF_THE_END, self._end_connections)
        try:
            await super().shutdown(sockets)
        finally:
            timer.cancel()

    def _end_connections(self) -> None:
        for connection in list(self.server_state.connections):
            connection.transport.abort()


class Service:
    """A server over the application, and why it ended."""

    def __init__(self, settings: Settings) -> None:
        self._status = 0
        app = application(settings, self._fail)
        # A warning of Uvicorn has parts of a request that is no HTTP, and nothing of a request is part of a log.
        self._server = Server(uvicorn.Config(
            app, log_level="error", access_log=False, http=Connection, ws="none", lifespan="on", loop="asyncio", server_header=False,
            timeout_keep_alive=SECONDS_OF_A_STILL_CONNECTION, limit_concurrency=CONNECTIONS, backlog=CONNECTIONS_AT_A_TIME,
        ))

    def _fail(self, status: int, cause: str) -> None:
        """Ends the server for a fault that no other start can mend."""
        if not self._status:
            print(cause, file=sys.stderr, flush=True)
        self._status = self._status or status
        self._server.should_exit = True

    def run(self, listener: socket.socket) -> int:
        """Answers to the end, and gives the status."""
        signal.signal(signal.SIGTERM, self._leave)
        signal.signal(signal.SIGINT, self._leave)
        allow_open_files()
        try:
            self._server.run(sockets=[listener])
        except SystemExit as error:
            return self._status or int(error.code or 0)
        return self._status

    @staticmethod
    def _leave(_: int, __: FrameType | None) -> None:
        """Later versions of uvicorn raise the signal once more after they have ended."""
        raise SystemExit(0)
