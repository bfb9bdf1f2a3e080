"""Tests of `priority_channel`. PRIORITY_CHANNEL_SO names the shared library."""

import os
import random
import threading
import time
import unittest

import priority_channel as pc

LIBRARY = os.environ.get("PRIORITY_CHANNEL_SO")


def channel(maxsize=0):
    return pc.Channel(maxsize, LIBRARY)


def start(call):
    thread = threading.Thread(target=call)
    thread.start()
    return thread


class Calls(unittest.TestCase):
    def test_the_greatest_comes_first_and_equals_in_order(self):
        it = channel()
        for message, priority in [("a", 1), ("b", 9), ("c", -3), ("d", 9), ("e", 1 << 100)]:
            it.put(message, priority)
        self.assertEqual([it.get()[0] for _ in range(5)], list("ebdac"))
        self.assertRaises(pc.Empty, it.get, block=False)

    def test_pairs_of_numbers(self):
        it = channel()
        for priority in [(1, 5), (2, -(1 << 63)), (1, 6), (-1, 0), (2, -1)]:
            it.put(None, priority)
        got = [it.get()[1] for _ in range(5)]
        self.assertEqual(got, sorted(got, reverse=True))
        self.assertRaises(OverflowError, it.put, None, 1 << 127)
        self.assertRaises(OverflowError, it.put, None, (1 << 63, 0))
        self.assertTrue(it.empty())

    def test_full_and_closed(self):
        it = channel(1)
        it.put("a", 1)
        self.assertTrue(it.full())
        self.assertRaises(pc.Full, it.put, "b", 2, block=False)
        self.assertRaises(pc.Full, it.put, "b", 2, timeout=0.01)
        self.assertTrue(it.close())
        self.assertFalse(it.close())
        self.assertRaises(pc.Closed, it.put, "b", 2)
        self.assertEqual(it.get(), ("a", 1))
        self.assertRaises(pc.Closed, it.get)
        self.assertEqual(it._pairs, {})
        self.assertEqual(it._waiting, {})

    def test_a_lease_is_done_or_goes_back(self):
        it = channel()
        it.put("a", 5)
        it.put("b", 5)
        with self.assertRaises(KeyError):
            with it.lease() as message:
                self.assertEqual(message, "a")
                raise KeyError
        self.assertEqual(it.get(), ("b", 5))
        it.close_when_done()
        lease = it.lease()
        self.assertRaises(pc.Empty, it.get, timeout=0.01)
        self.assertRaises(pc.Empty, it.lease, timeout=0.01)
        lease.done()
        self.assertRaises(ValueError, lease.done)
        self.assertTrue(it.closed)
        self.assertRaises(pc.Closed, it.lease)

    def test_a_change_of_priority(self):
        it = channel()
        late, soon = object(), object()
        it.put(late, 1)
        it.put(soon, 2)
        self.assertTrue(it.change_priority(late, 3))
        self.assertFalse(it.change_priority(object(), 3))
        self.assertEqual(it.get(), (late, 3))
        self.assertFalse(it.change_priority(late, 4))

    def test_random_calls_beside_a_sorted_list(self):
        chosen = random.Random(1)
        for _ in range(100):
            size = chosen.randrange(1, 9)
            it, model = channel(size), []
            for number in range(200):
                if chosen.random() < 0.6:
                    priority = chosen.choice([-1, 0, 1, (1 << 64) + 1])
                    try:
                        it.put(number, priority, block=False)
                        self.assertLess(len(model), size)
                        model.append((number, priority))
                    except pc.Full:
                        self.assertEqual(len(model), size)
                elif model:
                    # The first of the greatest.
                    best = max(model, key=lambda pair: pair[1])
                    model.remove(best)
                    self.assertEqual(it.get(block=False), best)
                else:
                    self.assertRaises(pc.Empty, it.get, block=False)
                self.assertEqual(it.qsize(), len(model))


class Threads(unittest.TestCase):
    def test_a_get_waits_for_a_put_and_for_the_close(self):
        it, got = channel(), []
        threads = [start(lambda: got.extend(it)) for _ in range(3)]
        time.sleep(0.02)
        it.put("a", 1)
        it.put("b", 1)
        it.close()
        for thread in threads:
            thread.join(10)
        self.assertEqual(sorted(got), [("a", 1), ("b", 1)])
        self.assertEqual(it._waiting, {})

    def test_nothing_is_lost_or_repeated(self):
        for size in (1, 5, 0):
            it, got = channel(size), []

            def send(side):
                for number in range(500):
                    it.put((side, number), number % 7)

            def work():
                while True:
                    try:
                        with it.lease() as message:
                            if message[1] % 50 == 0 and random.random() < 0.5:
                                raise KeyError
                            got.append(message)
                    except KeyError:
                        pass
                    except pc.Closed:
                        return

            senders = [start(lambda side=side: send(side)) for side in range(4)]
            workers = [start(work) for _ in range(4)]
            for sender in senders:
                sender.join(60)
            it.close_when_done()
            for worker in workers:
                worker.join(60)
            self.assertEqual(len(got), 2000)
            self.assertEqual(len(set(got)), 2000)
            self.assertEqual((it._pairs, it._waiting), ({}, {}))


if __name__ == "__main__":
    unittest.main()
