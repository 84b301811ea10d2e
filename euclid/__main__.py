"""`python3 -m euclid` is `bin/euclid`."""

import sys

from .cli import main

sys.exit(main(sys.argv[1:]))
