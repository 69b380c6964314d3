"""This process, and those of `tp`. They start without a shell and in a process group of their own, so that Ctrl-C ends only the gateway."""
import asyncio
import contextlib
import resource

from .settings import BYTES_OF_A_REPLY, OPEN_FILES

Streams = tuple[asyncio.StreamWriter, asyncio.StreamReader, asyncio.StreamReader]


def allow_open_files() -> None:
    """Lets this process have more files open than the usual 1,024, if the system allows it."""
    now, most = resource.getrlimit(resource.RLIMIT_NOFILE)
    wanted = OPEN_FILES if most == resource.RLIM_INFINITY else min(OPEN_FILES, most)
    if now != resource.RLIM_INFINITY and now < wanted:
        resource.setrlimit(resource.RLIMIT_NOFILE, (wanted, most))


async def start(words: list[str]) -> asyncio.subprocess.Process:
    """Starts a command, with pipes for its three streams; OSError if it can't be started."""
    pipe = asyncio.subprocess.PIPE
    return await asyncio.create_subprocess_exec(
        *words, stdin=pipe, stdout=pipe, stderr=pipe, limit=BYTES_OF_A_REPLY, start_new_session=True)


def streams_of(process: asyncio.subprocess.Process) -> Streams:
    """The three streams of a process that was started here."""
    if process.stdin is None or process.stdout is None or process.stderr is None:
        raise RuntimeError("the process has no pipes")
    return process.stdin, process.stdout, process.stderr


def kill(process: asyncio.subprocess.Process) -> None:
    """Kills a process, if it hasn't ended."""
    if process.returncode is None:
        with contextlib.suppress(ProcessLookupError):
            process.kill()


async def end(process: asyncio.subprocess.Process, seconds: float) -> None:
    """Waits for the end of a process, and kills it if it does not come in time. Then lets its input go, with what it didn't read."""
    try:
        await asyncio.wait_for(process.wait(), seconds)
    except TimeoutError:
        kill(process)
    to_process = streams_of(process)[0]
    if not to_process.transport.is_closing():
        to_process.transport.abort()
    with contextlib.suppress(OSError):
        await to_process.wait_closed()
