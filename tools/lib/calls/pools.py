"""Workers that answer questions, several at once: threads where programs do the work, processes where Python does it."""
import multiprocessing
import os
import signal
import threading
from collections import deque
from concurrent.futures import FIRST_COMPLETED, BrokenExecutor, ProcessPoolExecutor, ThreadPoolExecutor, wait
from contextlib import contextmanager, nullcontext
from multiprocessing.connection import wait as wait_for_one
from typing import Any, List

from knot_workbench.faults import Fault
from knot_workbench.programs import end_calls

# After how many seconds the main thread stops waiting for others and begins again. Python notices a signal that comes just before such a wait
# only at its end, and on a busy machine "just before" is long.
LOOK_UP = 1

# How many questions are handed out before the first of them is answered, where the answers are due in order.
AHEAD = 1000

# Signals that ask for an end. A terminal sends them to workers too, which only the script ends.
SIGNALS = (signal.SIGINT, signal.SIGTERM, signal.SIGHUP)

# What a worker process knows, which each function that is asked gets first.
_known: List[Any] = []


def processors():
    """How many processors this process may use."""
    return len(os.sched_getaffinity(0)) if hasattr(os, "sched_getaffinity") else os.cpu_count() or 1


class Pool:
    """Workers, so many. Where an exception leaves the block, as that of a signal, `stop` ends what they do, and they begin nothing. They are
    begun within the context `beginning`."""

    def __init__(self, executor, count, stop, beginning=nullcontext):
        self.executor, self.count, self.stop, self.beginning = executor, count, stop, beginning

    def __enter__(self):
        return self

    def __exit__(self, *error):
        if error[0]:
            self.stop()
        self.executor.shutdown(wait=True, cancel_futures=True)

    def each(self, function, items, lot=1):
        """What a function answers to each of the items, as they come; `lot` of them are handed out at once. Where they are a deque, others may be
        added meanwhile. Raises what the function raises, and Fault where a worker has ended."""
        waiting, running = items if isinstance(items, deque) else deque(items), set()
        while waiting or running:
            while waiting and len(running) < 2 * self.count:
                running.add(self.begun(function, [waiting.popleft() for _ in range(min(lot, len(waiting)))]))
            ended, running = wait(running, timeout=LOOK_UP, return_when=FIRST_COMPLETED)
            for one in ended:
                yield from answers_of(one)

    def in_order(self, function, items):
        """As `each`, in the order of the items."""
        waiting = deque()
        for item in items:
            waiting.append(self.begun(function, [item]))
            if len(waiting) >= AHEAD:
                yield from answers_of(waiting.popleft())
        while waiting:
            yield from answers_of(waiting.popleft())

    def begun(self, function, items):
        """The future of what a function answers to a few items."""
        with self.beginning(), naming_broken():
            return self.executor.submit(answers_to_items, function, items)


def threads(count, stop):
    """Threads that call programs; `stop` ends these."""
    return Pool(ThreadPoolExecutor(count), count, stop)


def processes(count, begin, words):
    """Processes, in each of which `begin` makes of some words what a worker knows: what is asked has that in front of an item. They end where
    this process does, and the programs of the module with them."""
    executor = ProcessPoolExecutor(count, multiprocessing.get_context("fork"), begin_worker, (begin, words))
    return Pool(executor, count, end_workers, signals_held)


def end_workers():
    """Ends all worker processes, and the programs that they call."""
    for worker in multiprocessing.active_children():
        worker.terminate()


@contextmanager
def naming_broken():
    """Raises Fault where a worker process has ended."""
    try:
        yield
    except BrokenExecutor:
        raise Fault("a worker has ended, perhaps since memory ran out") from None


def answers_of(future):
    """The answers of a future, once they are there; a signal is noticed meanwhile."""
    while not future.done():
        wait([future], timeout=LOOK_UP)
    with naming_broken():
        return future.result()


@contextmanager
def signals_held():
    """Keeps signals waiting: a process that begins meanwhile can't handle them yet."""
    before = signal.pthread_sigmask(signal.SIG_BLOCK, SIGNALS)
    try:
        yield
    finally:
        signal.pthread_sigmask(signal.SIG_SETMASK, before)


# ---- in a worker

def answers_to_items(function, items):
    """What a function answers to each of some items."""
    return [function(*_known, item) for item in items]


def begin_worker(begin, words):
    """The first that a worker process does."""
    for number in (signal.SIGINT, signal.SIGHUP):
        signal.signal(number, signal.SIG_IGN)
    signal.signal(signal.SIGTERM, end_worker)
    threading.Thread(target=end_with_parent, daemon=True).start()
    signal.pthread_sigmask(signal.SIG_UNBLOCK, SIGNALS)
    _known[:] = [begin(*words)]


def end_with_parent():
    """Ends this process where the one that has begun it has ended, as by a kill that can't be caught."""
    wait_for_one([multiprocessing.parent_process().sentinel])
    end_worker()


def end_worker(*_):
    """Ends the program that runs, and this process."""
    end_calls(lambda: os._exit(1))
