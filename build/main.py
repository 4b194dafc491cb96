"""The beginning of each call of Python by the script `gicstudy`. An interrupt of its first moments ends it without a word,
and an older Python is told before it reads what only a newer one can."""

import sys

try:
    import signal

    # (who ignores interrupts, as what runs in the background, goes on so)
    if signal.getsignal(signal.SIGINT) is signal.default_int_handler:
        signal.signal(signal.SIGINT, signal.SIG_DFL)
    # (the script holds them back until here, where it can)
    signal.pthread_sigmask(signal.SIG_UNBLOCK, [signal.SIGINT])
except KeyboardInterrupt:
    sys.exit(130)

OLDEST = (3, 11)


# (in quotes, an older Python reads the types too)
def main(words: "list[str]", version: "tuple[int, ...]" = sys.version_info[:2]) -> int:
    if version < OLDEST:
        what = "the program may have to be compiled, which needs Python 3.11 or later; the python3 on the path is older"
        sys.stderr.write("gicstudy: " + what + "\n")
        return 1
    import command

    return command.main(words)


if __name__ == "__main__":
    sys.exit(main(sys.argv[1:]))
