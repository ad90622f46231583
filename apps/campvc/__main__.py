"""Runs campvc out of the repository: `python3 apps/campvc COMMAND`, with the library where clients/build puts it."""

import os
import sys

HERE = os.path.dirname(os.path.abspath(__file__))
sys.path[:0] = [HERE, os.path.join(HERE, "..", "..", "clients", "python")]
sys.pycache_prefix = os.path.join(HERE, "..", "..", "out", "pycache")

from campvc.__main__ import main  # noqa: E402

sys.exit(main())
