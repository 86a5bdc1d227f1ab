"""How long a run of a test may take: so many seconds of a processor, of each process of it. What else the machine does
takes none of them.

By the clock it may take many times as long. That is no measure of the program: it ends a run that waits for good.
"""
import resource
import signal

# How many times as long a run may take by the clock.
TIMES = 20


def by_clock(seconds):
    """How long one waits for what takes so many seconds of a processor."""
    return TIMES * seconds


def limited(seconds, prepare=None):
    """The limits of a run, as `subprocess.run` takes them. Its process may be prepared by a further call."""

    def begin():
        most = resource.getrlimit(resource.RLIMIT_CPU)[1]
        resource.setrlimit(resource.RLIMIT_CPU, (seconds, most))
        if prepare:
            prepare()

    return {"preexec_fn": begin, "timeout": by_clock(seconds)}


def status_of(ran, seconds):
    """The exit status of a run, or that it had not ended when its seconds were over."""
    return f"none within {seconds} seconds of a processor" if ran.returncode == -signal.SIGXCPU else ran.returncode
