"""Threads that share arrays: right answers, and no call that stops the others."""
import array
import itertools
import signal
import threading
import time
import unittest

import flcol
from columns import items_of

ROUNDS = 20


def side_by_side(*calls):
    """Makes calls at the same time, and raises what one of them raises."""
    faults, begin = [], threading.Barrier(len(calls))

    def run(call):
        try:
            begin.wait()
            call()
        except BaseException as fault:  # noqa: B902
            faults.append(fault)

    threads = [threading.Thread(target=run, args=(call,)) for call in calls]
    for thread in threads:
        thread.start()
    for thread in threads:
        thread.join()
    if faults:
        raise faults[0]


def asked(column, items):
    """Asks an array for all that it can do."""
    wanted = [None if item is None else item > 9 for item in items]
    for _ in range(ROUNDS):
        assert column.to_list() == items
        assert column[5:50].to_list() == items[5:50] and column[7] == items[7] and column[[3, -1]].to_list() == [items[3], items[-1]]
        answers = column > 9
        assert answers.to_list() == wanted and (answers & answers).sum() == wanted.count(True)
        assert column[answers].size == wanted.count(True) and column.null_count == items.count(None)
        assert flcol.frombytes(bytes(column)).scheme == column.scheme


class Sharing(unittest.TestCase):
    def test_four_threads_ask_one_array(self):
        items = items_of("uint32", 2000, True)
        plain = flcol.array(items, dtype="uint32?")
        for scheme in ("rle", "for(bitpacked)"):
            shared = plain.encode(scheme)
            side_by_side(*[lambda: asked(shared, items)] * 4)

    def test_four_threads_ask_two_arrays_at_once(self):
        items, places = list(range(1000)), flcol.array(range(999, -1, -1), dtype="int16")
        one, two = flcol.array(items, dtype="uint16"), flcol.array(items[::-1], dtype="uint16")
        same, other = one == 7, two == 7

        def crossing(left, right, first, second):
            wanted = [left.to_list()[place] for place in right.to_list()]
            for _ in range(ROUNDS):
                assert left[right].to_list() == wanted
                assert right[left].size == 1000 and left[places].size == 1000
                assert (first | second).sum() == 2 and (second & first).sum() == 0
                assert flcol.frombytes(bytes(first[3:])).sum() == first[3:].sum()

        turns = itertools.cycle([lambda: crossing(one, two, same, other), lambda: crossing(two, one, other, same)])
        side_by_side(*itertools.islice(turns, 4))

    def test_arrays_of_one_another(self):
        items = items_of("int64", 2000, True)
        whole = flcol.array(items, dtype="int64?").encode("delta")

        def slices(start):
            part = whole[start:]
            for _ in range(ROUNDS):
                assert part.to_list() == items[start:]
                part = part[:]

        side_by_side(*(lambda start=start: slices(start) for start in range(4)))

    def test_a_handler_of_a_signal_asks_the_same_array(self):
        items = list(range(300_000))
        shared, seen = flcol.array(items).encode("for(bitpacked)"), []
        before = signal.signal(signal.SIGALRM, lambda *_: seen.append(shared[5]))
        signal.setitimer(signal.ITIMER_REAL, 0.001, 0.001)
        try:
            while len(seen) < 5:
                self.assertEqual(shared.take([7]).to_list() + (shared < 3)[:4].to_list(), [7, True, True, True, False])
        finally:
            signal.setitimer(signal.ITIMER_REAL, 0)
            signal.signal(signal.SIGALRM, before)
        self.assertEqual(set(seen), {5})


class LettingGo(unittest.TestCase):
    def test_a_long_call_stops_no_other_thread(self):
        many = flcol.array(array.array("I", range(1 << 18))).encode("delta(for(bitpacked),_)")
        ticks, done = [], threading.Event()

        def tick():
            while not done.wait(0.0005):
                ticks.append(time.perf_counter())

        def ticks_in_a_call():
            before = time.perf_counter()
            self.assertEqual(many.compress().size, 1 << 18)
            after = time.perf_counter()
            return sum(before < at < after for at in ticks)

        ticker = threading.Thread(target=tick)
        ticker.start()
        try:
            begun = time.perf_counter()
            while (most := ticks_in_a_call()) < 3 and time.perf_counter() - begun < 3:
                pass
        finally:
            done.set()
            ticker.join()
        self.assertGreaterEqual(most, 3)


if __name__ == "__main__":
    unittest.main()
