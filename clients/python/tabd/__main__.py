# SPDX-License-Identifier: Apache-2.0
"""`python3 -m tabd`: the operator's programs, which tabd/cli has."""

from __future__ import annotations

import sys

from .cli import main

sys.exit(main())
