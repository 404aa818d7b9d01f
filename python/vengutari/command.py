"""The command vengutari: what each sub-command does, and how it ends."""

import importlib
import signal
import sys
import time

from . import __version__
from .problems import Error

SOLVED, REFUSED, NOT_SOLVED, WARNED, INTERRUPTED = 0, 1, 3, 4, 130
# Each has a module of its own, that is loaded when it is run.
REQUESTS = ("peel", "drift", "boards", "merge", "bus")
# Signals within so many seconds are one request: some senders, such as timeout, signal a command twice.
TOGETHER = 0.5


def complain(problem):
    """One line on standard error."""
    text = "".join(c if c.isprintable() else " " for c in str(problem))
    try:
        if sys.stderr is not None:
            print(f"vengutari: {text[:600]}", file=sys.stderr, flush=True)
    except (OSError, ValueError):
        pass


class Interrupts:
    """Requests to end: Ctrl-C, a supervisor's, or that of a terminal that is closed.

    Before a search has begun the first is raised. From then on it is noted, so that the answer that it leads to is shown and written; one
    that comes later is raised, which ends a command that waits for ever.
    """

    def __init__(self):
        self.begun = False
        self.asked = False
        self.last = None
        known = [getattr(signal, name) for name in ("SIGINT", "SIGTERM", "SIGHUP") if hasattr(signal, name)]
        self.numbers = [number for number in known if signal.getsignal(number) != signal.SIG_IGN]
        for number in self.numbers:
            signal.signal(number, self.take)

    def begin(self):
        self.begun = True

    def take(self, number, frame):
        before, self.last = self.last, time.monotonic()
        again = before is not None
        if again and self.last - before <= TOGETHER:
            return
        self.asked = True
        if again or not self.begun:
            raise KeyboardInterrupt

    def close(self):
        """All is done: a request that comes while Python ends changes nothing."""
        for number in self.numbers:
            signal.signal(number, signal.SIG_IGN)


def run_command(words, stop):
    from .options import joined, parser

    words = joined(words)
    if words[:1] in (["fit"], ["peel"], ["drift"]):
        from .config import with_config

        words = with_config(words)
    options = parser().parse_args(words)
    options.words = words
    if options.command == "fit" and (len(options.data) > 1 or options.summary):
        from .many import command_many

        return command_many(options, stop)
    if options.command == "fit":
        from .fit_command import command_fit

        return command_fit(options, stop)
    if options.command in REQUESTS:
        module = importlib.import_module(f".{options.command}_command", __package__)
        return getattr(module, f"command_{options.command}")(options, stop)
    if hasattr(options, "run"):
        return options.run(options)
    from .later import COMMANDS

    return COMMANDS[options.command](options)


def status_of(words, stop):
    """Runs one command, and says in a line what keeps it from its end."""
    try:
        return run_command(words, stop)
    except Error as problem:
        complain(problem)
        return problem.status
    except KeyboardInterrupt:
        complain("interrupted")
        return INTERRUPTED
    except MemoryError:
        complain("not enough memory; --table keeps fewer boxes open")
        return REFUSED
    except OSError as error:
        complain(error.strerror or error)
        return REFUSED


def main(words=None):
    """Runs one command; words are those behind its name. A request to end ends a search with its answer."""
    if words is not None:
        return status_of(words, None)
    if sys.argv[1:] == ["--version"]:
        print(f"vengutari {__version__}")
        return SOLVED
    stop = Interrupts()
    status = status_of(sys.argv[1:], stop)
    stop.close()
    return status
