"""Run `python3 -m iim`."""
import sys

from iim.program import main

if __name__ == "__main__":
    sys.exit(main())
