# SPDX-License-Identifier: Apache-2.0
"""The client for asyncio. Terms, errors and events are those of `tabd`.

    import tabd, tabd.aio

    async with tabd.aio.Client(4000) as client:
        person = await client.create_table("person", ["name", "age"])

        async for attempt in client.attempts():
            async with attempt as t:
                await t.write(("person", "alice", 30))

        async with person.events(dump=True) as events:
            async for event in events:
                print(event)
"""

from __future__ import annotations

from .client import Client, Table
from .events import Events
from .mirror import Mirror
from .transactions import OneShot, Transaction

__all__ = ["Client", "Events", "Mirror", "OneShot", "Table", "Transaction"]
