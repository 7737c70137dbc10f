"""The language server: `python -m stratbench.server`."""

import sys

from .server import main

if __name__ == "__main__":
    sys.exit(main())
