"""Run iim-archive, as `python3 -m iim.archive`."""
import signal
import sys


def main() -> int:
    """Run iim-archive, and return its exit status."""
    # (until the program sets its handler, Ctrl-C ends the process without a traceback)
    signal.signal(signal.SIGINT, signal.SIG_DFL)
    from iim.archive import program

    return program.main()


if __name__ == "__main__":
    sys.exit(main())
