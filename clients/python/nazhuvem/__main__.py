"""`python3 -m nazhuvem` is the command `nazhuvem`."""

import sys

from nazhuvem.command import main

if __name__ == "__main__":
    sys.exit(main())
