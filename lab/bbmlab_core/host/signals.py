"""Signals that end a command: SIGINT, SIGTERM and SIGHUP become an exception, and a closed pipe ends the process as it
ends `cat`.

Python runs a handler in the main thread, between two of its instructions. Two gaps follow, and both are closed here:

- A signal that comes after the last instruction and before a system call does not interrupt the call, so the handler
  waits for its end. `start_interrupt_timer` interrupts each call after half a second.
- The exception may be raised where a program was started and nothing knows it yet, or in the middle of its end.
  `delay_stop_signal` delays it.
"""

import atexit
import os
import signal
import sys
import threading
from contextlib import contextmanager
from types import FrameType
from typing import Iterator, NoReturn

# SIGHUP comes when the terminal is closed. Without the exception the program would go on, since it has a session of its
# own.
ENDING_SIGNALS = (signal.SIGINT, signal.SIGTERM, signal.SIGHUP)
# The longest time that a signal waits for the end of a system call.
INTERRUPT_INTERVAL_SECONDS = 0.5


class StoppedBySignal(KeyboardInterrupt):
    """One of `ENDING_SIGNALS`. `status` is the exit status that a shell gives for it."""

    def __init__(self, number: int) -> None:
        super().__init__(number)
        self.name = signal.Signals(number).name
        self.status = 128 + number


class SignalDelay:
    """How many parts of the main thread delay the exception, and the signal that came meanwhile."""

    depth = 0
    number = 0


def handle_signal(number: int, _frame: FrameType | None) -> None:
    """Raises `StoppedBySignal`, or leaves that to the end of a delay.

    A second SIGINT or SIGTERM ends the process at once. A second SIGHUP does nothing: the kernel and the shell send one
    each.
    """
    for own in ENDING_SIGNALS:
        signal.signal(own, signal.SIG_IGN if own == signal.SIGHUP else signal.SIG_DFL)
    SignalDelay.number = number
    if not SignalDelay.depth:
        raise_delayed_stop()


def raise_delayed_stop() -> None:
    """Raises `StoppedBySignal` for a signal that came and was not raised yet."""
    number, SignalDelay.number = SignalDelay.number, 0
    if number:
        raise StoppedBySignal(number)


@contextmanager
def delay_stop_signal() -> Iterator[None]:
    """Delays `StoppedBySignal` in the main thread to the end of a block. Other threads never get it."""
    if threading.current_thread() is not threading.main_thread():
        yield
        return
    depth = SignalDelay.depth
    SignalDelay.depth = depth + 1
    try:
        yield
    finally:
        SignalDelay.depth = depth
    if not depth:
        raise_delayed_stop()


@contextmanager
def allow_stop_signal() -> Iterator[None]:
    """Raises `StoppedBySignal` in a block, also if the signal came before it, although the code around it is in
    `delay_stop_signal`."""
    if threading.current_thread() is not threading.main_thread():
        yield
        return
    depth, SignalDelay.depth = SignalDelay.depth, 0
    try:
        raise_delayed_stop()
        yield
    finally:
        SignalDelay.depth = depth


def start_interrupt_timer() -> None:
    """Interrupts the system calls of the main thread again and again.

    Python repeats them, after the handlers that wait.
    """
    signal.signal(signal.SIGALRM, lambda _number, _frame: None)
    # At its end Python takes all handlers off, and SIGALRM would end the process.
    atexit.register(signal.setitimer, signal.ITIMER_REAL, 0)
    signal.setitimer(signal.ITIMER_REAL, INTERRUPT_INTERVAL_SECONDS, INTERRUPT_INTERVAL_SECONDS)


def install_signal_handlers() -> None:
    """Makes the signals of `ENDING_SIGNALS` raise `StoppedBySignal`, unless they are ignored, as `nohup` does."""
    for number in ENDING_SIGNALS:
        if signal.getsignal(number) is not signal.SIG_IGN:
            signal.signal(number, handle_signal)
    start_interrupt_timer()


def end_by_pipe() -> NoReturn:
    """Ends the process by SIGPIPE."""
    os.dup2(os.open(os.devnull, os.O_WRONLY), 1)
    signal.signal(signal.SIGPIPE, signal.SIG_DFL)
    os.kill(os.getpid(), signal.SIGPIPE)
    sys.exit(141)
