# SPDX-License-Identifier: Apache-2.0
"""What a decorator of functions that run in a transaction needs to know of them."""

from __future__ import annotations

import contextlib
import inspect
from typing import Any


# Flags of a function whose call does not run its body.
LATER = inspect.CO_COROUTINE | inspect.CO_GENERATOR | inspect.CO_ASYNC_GENERATOR


def check_plain(function: Any) -> None:
    """Raises TypeError for a function whose result does its work later, after the commit."""
    if inspect.isfunction(function) and not function.__code__.co_flags & LATER:
        return
    if not callable(function):
        raise TypeError(f"{function!r} is no function")
    # An object may be called as a function.
    called = function if inspect.isroutine(function) else function.__call__
    for one in (function, called):
        if inspect.iscoroutinefunction(one) or inspect.isasyncgenfunction(one):
            raise TypeError(f"{function!r} is a coroutine function: tabd.aio has the client for asyncio")
        if inspect.isgeneratorfunction(one):
            raise TypeError(f"{function!r} is a generator function: it would run after the commit")


def transaction_place(function: Any) -> int:
    """The index of the transaction among the parameters: 0, or 1 in a method, after `self` or `cls`."""
    try:
        first = next(iter(inspect.signature(function).parameters), "")
    except (TypeError, ValueError):
        return 0
    return 1 if first in ("self", "cls") else 0


def without_parameter(run: Any, place: int) -> None:
    """Shows the signature that the callers see."""
    with contextlib.suppress(TypeError, ValueError):
        signature = inspect.signature(run)
        parameters = list(signature.parameters.values())
        if len(parameters) > place and parameters[place].kind in (inspect.Parameter.POSITIONAL_ONLY, inspect.Parameter.POSITIONAL_OR_KEYWORD):
            del parameters[place]
        run.__signature__ = signature.replace(parameters=parameters)
