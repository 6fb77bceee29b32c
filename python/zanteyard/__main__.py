"""`python3 -m zanteyard` is the command `zanteyard`."""

import sys

from .cli._main import main

sys.exit(main())
