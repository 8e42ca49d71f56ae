"""Pieces of work that are done on several threads at once and taken in order."""
import signal
import threading
from queue import LifoQueue, SimpleQueue

from .failure import Failure


class Pipeline:
    """Each slot that is put goes through `work` on one of `jobs` threads, and then through each of `takers`, which has a thread of its own
    and takes the slots in the order in which they were put. A slot that all have taken is free again. What one of them raises ends the
    pipeline, and is raised to whoever waits for a slot. The threads end with the process, even one that waits for a reader of standard
    output."""

    def __init__(self, slots, work, takers, jobs):
        self.slots, self.work, self.jobs, self.failure = slots, work, jobs, None
        # The slot that was freed last comes first: its memory is at hand.
        self.waiting, self.free = SimpleQueue(), LifoQueue()
        self.orders = [SimpleQueue() for _ in takers]
        for slot in slots:
            self.free.put(slot)
        loops = [(self._work,)] * jobs
        loops += [(self._take, *stage) for stage in zip(takers, self.orders, self.orders[1:] + [self.free])]
        # A signal that another thread took would not wake the one that waits for records: the threads begin with what is blocked here.
        before = signal.pthread_sigmask(signal.SIG_BLOCK, signal.valid_signals())
        try:
            for loop in loops:
                threading.Thread(target=self._guarded, args=loop, daemon=True).start()
        except RuntimeError:
            raise Failure(f'the system has no room for {len(loops)} threads: take fewer with --jobs') from None
        finally:
            signal.pthread_sigmask(signal.SIG_SETMASK, before)

    def slot(self):
        """Waits for a free slot."""
        slot = self.free.get()
        if self.failure:
            raise self.failure
        return slot

    def put(self, slot):
        slot.worked = threading.Event()
        self.orders[0].put(slot)
        self.waiting.put(slot)

    def give_back(self, slot):
        """Of a slot that is not put."""
        self.free.put(slot)

    def end(self):
        """Waits until every slot was taken, and ends the threads."""
        for _ in self.slots:
            self.slot()
        self.stop()

    def stop(self):
        """Ends the threads, each with what it is at."""
        for queue in [self.waiting] * self.jobs + self.orders:
            queue.put(None)

    def _guarded(self, loop, *words):
        try:
            loop(*words)
        except BaseException as failure:
            self.failure = self.failure or failure
            self.free.put(None)

    def _work(self):
        while (slot := self.waiting.get()) is not None:
            self.work(slot)
            slot.worked.set()

    def _take(self, take, order, next_order):
        while (slot := order.get()) is not None:
            slot.worked.wait()
            take(slot)
            next_order.put(slot)
