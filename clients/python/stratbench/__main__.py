"""The shell: `python -m stratbench`."""

import sys

from .shell import main

if __name__ == "__main__":
    sys.exit(main())
