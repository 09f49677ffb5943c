"""Runs the cases side by side, and prints what came of each.

    python3 main.py PROGRAM [WORD..]      (the cases whose names have one of the words)

The status is 3 where the program did what it must not do. A case that this machine cannot run, as
where it has no port or no network of its own, is told and counts for nothing.
"""
import importlib
import os
import signal
import sys
import threading
import time
import traceback

from node import Broken, Late, end_all

# How many seconds all cases have, and those that are tried again where they failed.
LIMIT, SHORT = 110, 40

SUBJECTS = ["strangers", "broken", "lies", "unreachable", "honest", "blocked", "heavy_call"]


def all_cases():
    cases = {}
    for subject in SUBJECTS:
        try:
            cases.update(getattr(importlib.import_module(subject), "CASES", {}))
        except ModuleNotFoundError as error:
            if error.name != subject:
                raise
    return cases


_lock = threading.Lock()


def tell(line):
    with _lock:
        print(line, flush=True)


class Run(threading.Thread):
    """One case, with what came of it."""

    def __init__(self, name, case, program):
        super().__init__(daemon=True)
        self.title, self.case, self.program = name, case, program
        self.failed, self.found = False, "skipped: it did not end in time"

    def run(self):
        began = time.monotonic()
        self.once()
        if self.failed and time.monotonic() - began < SHORT:
            tell(f"{self.title}: {self.found}; once more, since the machine may have been busy")
            self.failed = False
            self.once()
        tell(f"{self.title}: {self.found} ({time.monotonic() - began:.1f} s)")

    def once(self):
        try:
            self.found = self.case(self.program)
        except Broken as error:
            if isinstance(error, Late) and is_busy():
                self.found = f"skipped, since this machine has too much to do: {error}"
            else:
                self.failed, self.found = True, f"FAILED: {error}"
        except (OSError, EOFError) as error:
            self.found = f"skipped: {error!r}"
        except Exception:
            last = traceback.format_exc().splitlines()[-1]
            self.found = f"skipped, by a fault of the bench: {last}"


def is_busy():
    """Whether so much waits for the processors that what is late tells nothing."""
    return os.getloadavg()[0] > 3 * (os.cpu_count() or 1)


def cut_off(*_):
    end_all()
    os._exit(2)


def main(program, *words):
    signal.signal(signal.SIGTERM, cut_off)
    runs = [
        Run(name, case, program)
        for name, case in all_cases().items()
        if not words or any(word in name for word in words)
    ]
    for run in runs:
        run.start()
    end = time.monotonic() + LIMIT
    for run in runs:
        run.join(max(0.0, end - time.monotonic()))
        if run.is_alive():
            tell(f"{run.title}: {run.found}")
    failed = sum(run.failed for run in runs)
    end_all()
    print(f"{len(runs)} cases, {failed} failed")
    return 3 if failed else 0


if __name__ == "__main__":
    sys.exit(main(*sys.argv[1:]))
