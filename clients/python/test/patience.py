# SPDX-License-Identifier: Apache-2.0
"""Time for tests of the operator's programs: on a machine that proves meanwhile, a server's first reply may take longer than a client waits."""

from __future__ import annotations

import unittest
from unittest import mock

import tabd.cli.wire
import tabd.connection

SECONDS = 120.0


class Patient(unittest.TestCase):
    """A test whose clients wait so long for their first reply."""

    @classmethod
    def setUpClass(cls) -> None:
        for module in (tabd.connection, tabd.cli.wire):
            if hasattr(module, "OPENING_SECONDS"):
                patch = mock.patch.object(module, "OPENING_SECONDS", SECONDS)
                patch.start()
                cls.addClassCleanup(patch.stop)
