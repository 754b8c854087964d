"""Run iim-explain, as `python3 -m iim.explain`."""
import signal
import sys


def main() -> int:
    """Run iim-explain, and return its exit status."""
    if signal.getsignal(signal.SIGINT) is signal.default_int_handler:
        # (until the program sets its handler, Ctrl-C ends the process without a traceback)
        signal.signal(signal.SIGINT, signal.SIG_DFL)
    from iim import program

    return program.main(["explain", *sys.argv[1:]])


if __name__ == "__main__":
    sys.exit(main())
