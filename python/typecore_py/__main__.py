"""python -m typecore_py: the same as ./typecore-py."""

import sys

from .command_line import main

sys.exit(main())
