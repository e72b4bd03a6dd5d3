"""A store for asyncio."""
import asyncio
import concurrent.futures
import functools
from typing import Any, AsyncIterator, Awaitable, Callable

from .commands import Commands, Value
from .values import MAX_SESSIONS, RANGE_LEN, check_number

OTHERS = frozenset(("close", "journal", "open", "ranges", "start_upload"))
"""The methods of a store that return no value, but something that is used step by step."""


class AsyncStore:
    """A `Store` or a `Client` whose methods are coroutines: each command runs in a thread, up to `threads` of them at a time. Give a client as many
    sessions.

        async with AsyncStore(Store()) as store:
            tenant = await store.tenant()
            rows = await asyncio.gather(*(store.upload(content, tenant) for content in contents))

    It has the methods of `Store` that return a value, and `ranges`; `run` runs any other. Each raises the same errors. If a coroutine is cancelled, its command
    still runs to its end, unless it waits for a thread: then it isn't run."""

    def __init__(self, store: Commands, threads: int = 4) -> None:
        if not isinstance(store, Commands):
            raise TypeError(f"a store must be a Store or a Client, not {type(store).__name__}")
        self.store, self._is_closed = store, False
        self._threads = concurrent.futures.ThreadPoolExecutor(check_number("threads", threads, 1, MAX_SESSIONS), "b3store")

    async def __aenter__(self) -> "AsyncStore":
        return self

    async def __aexit__(self, *_: Any) -> None:
        await self.close()

    async def run(self, call: Callable[..., Value], *words: Any, **options: Any) -> Value:
        """Runs a method of the store in a thread, and returns its result: `await store.run(store.store.size, tenant, address)`."""
        if self._is_closed:
            raise ValueError("the store is closed")
        return await asyncio.get_running_loop().run_in_executor(self._threads, functools.partial(call, *words, **options))

    async def close(self) -> None:
        """Closes the store, once its commands are done. A second call has no effect."""
        if not self._is_closed:
            await self.run(self.store.close)
            self._is_closed = True
            await asyncio.get_running_loop().run_in_executor(None, self._threads.shutdown)

    def __getattr__(self, name: str) -> Callable[..., Awaitable[Any]]:
        """A coroutine function for a method of the store."""
        if name.startswith("_") or name in OTHERS or not hasattr(Commands, name):
            raise AttributeError(f"{type(self).__name__!r} object has no attribute {name!r}")
        return functools.partial(self.run, getattr(self.store, name))

    async def ranges(self, tenant: int, address: str, length: int = RANGE_LEN) -> AsyncIterator[bytes]:
        """See `Store.ranges`."""
        pieces = self.store.ranges(tenant, address, length)
        while piece := await self.run(next, pieces, b""):
            yield piece
