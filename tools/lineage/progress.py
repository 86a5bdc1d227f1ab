"""How far something is that takes long, on standard error: on a terminal a line that is renewed, elsewhere a line
now and then.
"""
import os
import signal
import time

from lineage.saying import renew

# How often it is said, in seconds: on a terminal, and elsewhere.
TERMINAL_PERIOD = 1
PLAIN_PERIOD = 60


def minutes(seconds):
    """A time for a person."""
    whole, rest = divmod(int(seconds), 60)
    return f"{whole} min {rest} s"


class Progress:
    """What is said meanwhile: `text` is asked for it each time, until it answers nothing."""

    def __init__(self, text, say, plain_period=PLAIN_PERIOD):
        self.text, self.say = text, say
        self.start = time.monotonic()
        self.is_terminal = os.isatty(2)
        # Whether the line of a terminal has it now.
        self.is_shown = False
        self.period = TERMINAL_PERIOD if self.is_terminal else plain_period

    def __enter__(self):
        self.begin()
        return self

    def __exit__(self, *_):
        self.end()

    def begin(self):
        signal.signal(signal.SIGALRM, lambda *_: self.show())
        signal.setitimer(signal.ITIMER_REAL, self.period, self.period)

    def end(self):
        signal.setitimer(signal.ITIMER_REAL, 0)
        if self.is_shown:
            renew("")
            self.is_shown = False

    def seconds(self):
        return time.monotonic() - self.start

    def show(self):
        text = self.text()
        if not text:
            self.end()
        elif self.is_terminal:
            renew(f"lineage: {text}")
            self.is_shown = True
        else:
            self.say(text)
