"""What a Python user expects, a careless one too."""
import gc
import random
import threading
import time
import unittest

import cicada

ROW = (1, 2, 3, 4, 5, 6)


class Calls(unittest.TestCase):
    def setUp(self) -> None:
        self.engine = cicada.Engine(seats=2, rows=20_000)
        self.seat, self.other = self.engine.seats
        self.addCleanup(self.engine.close)

    def here(self, key, table=0):
        return self.seat.transact(lambda txn: txn.get(table, key))

    def test_rows(self):
        with self.seat.transaction() as txn:
            txn.put(0, 7, ROW)
            txn.put(7, cicada.GREATEST, (cicada.GREATEST,))
            self.assertEqual(txn.get(0, 7), ROW)
            self.assertIsNone(txn.get(0, 8))
        self.assertGreater(txn.stamp, 0)
        self.assertEqual(self.here(7), ROW)
        self.assertEqual(self.here(cicada.GREATEST, 7), (cicada.GREATEST, 0, 0, 0, 0, 0))
        self.assertTrue(self.seat.transact(lambda txn: txn.remove(0, 7)))
        self.assertFalse(self.seat.transact(lambda txn: txn.remove(0, 7)))
        self.assertEqual(self.seat.counts()[:2], (5, 0))

    def test_counts_tell_what_is_left(self):
        before = self.seat.counts()
        self.seat.transact(lambda txn: txn.put(3, 1, ROW))
        after = self.seat.counts()
        self.assertEqual((after.commits, after.refusals), (before.commits + 1, before.refusals))
        self.assertLess(after.records, before.records)
        self.assertGreater(after.queued, before.queued)
        self.seat.transact(lambda txn: txn.remove(3, 1))
        self.assertGreater(self.seat.counts().records, after.records)
        for _ in range(3):
            self.other.rest()
            self.seat.rest()
        self.assertEqual(self.seat.counts().queued, 0)

    def test_any_exception_aborts(self):
        for error in (ValueError, KeyboardInterrupt, SystemExit, GeneratorExit, ZeroDivisionError):
            with self.assertRaises(error):
                with self.seat.transaction() as txn:
                    txn.put(0, 1, ROW)
                    raise error("mine")

            def body(txn):
                txn.put(0, 1, ROW)
                raise error("mine")

            with self.assertRaises(error):
                self.seat.transact(body)
            with self.assertRaises(error):
                with self.seat.snapshot():
                    raise error("mine")
            self.assertIsNone(self.here(1))

    def test_numbers_are_refused_and_not_wrapped(self):
        def refused(error, call):
            def body(txn):
                with self.assertRaises(error):
                    call(txn)

            self.seat.transact(body)

        for table in (-1, 8, 2**32, 2**64):
            refused(cicada.OutOfRangeError, lambda txn: txn.put(table, 1, ROW))
            refused(cicada.OutOfRangeError, lambda txn: txn.get(table, 1))
            refused(cicada.OutOfRangeError, lambda txn: txn.remove(table, 1))
            refused(cicada.OutOfRangeError, lambda txn: txn.list(table))
            refused(cicada.OutOfRangeError, lambda txn: txn.count(table))
            refused(cicada.OutOfRangeError, lambda txn: txn.apply([cicada.get(table, 1)]))
        for number in (-1, 2**64, 2**64 + 1):
            refused(cicada.OutOfRangeError, lambda txn: txn.put(0, number, ROW))
            refused(cicada.OutOfRangeError, lambda txn: txn.put(0, 1, (number,)))
            refused(cicada.OutOfRangeError, lambda txn: txn.get(0, number))
            refused(cicada.OutOfRangeError, lambda txn: txn.list(0, number))
            refused(cicada.OutOfRangeError, lambda txn: txn.list(0, 0, number))
            with self.assertRaises(cicada.OutOfRangeError):
                self.seat.hear(number)
        refused(cicada.OutOfRangeError, lambda txn: txn.put(0, 1, range(7)))
        for other in (1.5, "1", None):
            refused(TypeError, lambda txn: txn.get(0, other))
            refused(TypeError, lambda txn: txn.get(other, 0))
            refused(TypeError, lambda txn: txn.put(0, 1, (other,)))
        with self.assertRaises(cicada.OutOfRangeError):
            self.seat.hear(cicada.GREATEST)
        for sizes in ({"seats": 0}, {"seats": 65}, {"rows": 195_889}, {"rows": -1}, {"rows": 2**32}, {"spare": 262_145}):
            with self.assertRaises(cicada.OutOfRangeError):
                cicada.Engine(**sizes)
        self.assertEqual(self.seat.transact(lambda txn: txn.count(0)), 0)

    def test_lists_of_any_length(self):
        for part in range(5):
            with self.seat.transaction() as txn:
                for key in range(307):
                    txn.put(1, part * 307 + key, (key,))
        with self.seat.transaction() as txn:
            self.assertEqual([key for key, _ in txn.rows(1)], [*range(1535)])
            self.assertEqual(len(txn.list(1, 5, 516)), 512)
            self.assertEqual(len(txn.list(1, 5, 517)), 513)
            self.assertEqual(txn.list(1, 9, 8), [])
            self.assertEqual(txn.list(1, cicada.GREATEST), [])
            self.assertEqual(txn.count(1), 1535)
            txn.put(1, cicada.GREATEST, ROW)
            self.assertEqual(txn.list(1, 2000), [(cicada.GREATEST, ROW)])
            rows = txn.rows(1)
            next(rows)
        for _ in range(511):
            next(rows)
        with self.assertRaises(cicada.MisusedError):
            next(rows)

    def test_rows_by_an_index(self):
        with self.seat.transaction() as txn:
            self.assertIsNone(txn.find(4, 2))
            self.assertTrue(txn.declare_index(4, 2))
            self.assertFalse(txn.declare_index(4, 1))
            for column in (0, 7):
                with self.assertRaises(cicada.OutOfRangeError):
                    txn.declare_index(5, column)
                with self.assertRaises(cicada.OutOfRangeError):
                    txn.find(5, column)
            for key in range(6):
                txn.put(4, key, (0, 100 - key // 2))
            self.assertEqual([key for key, _ in txn.find(4, 2)], [4, 5, 2, 3, 0, 1])
            self.assertEqual([key for key, _ in txn.find(4, 2, 99, 100, 3)], [2, 3, 0])
            self.assertEqual(txn.find(4, 2, 5, 4), [])
            self.assertEqual(txn.find(4, 2, most=0), [])

    def test_batches(self):
        with self.seat.transaction() as txn:
            batch = [cicada.put(0, 1, (10, 5)), cicada.subtract(0, 1, (3,)), cicada.add(0, 2, (3,)), cicada.get(0, 1), cicada.remove(0, 1), cicada.get(0, 1)]
            txn.apply(batch)
            self.assertEqual([it.found for it in batch], [True, True, False, True, True, False])
            self.assertEqual(batch[3].row, (7, 5, 0, 0, 0, 0))
            txn.apply([])
            batch = [cicada.put(0, 3, (1,)), cicada.subtract(0, 3, (2,)), cicada.put(0, 3, (9,))]
            with self.assertRaises(cicada.OutOfRangeError):
                txn.apply(batch)
            self.assertEqual(txn.get(0, 3), (1, 0, 0, 0, 0, 0))
        self.seat.rest()
        self.other.rest()
        self.seat.collect()
        with self.seat.snapshot() as view:
            with self.assertRaises(cicada.MisusedError):
                view.apply([cicada.get(0, 3), cicada.put(0, 3, ROW)])

    def test_misuse(self):
        with self.seat.transaction() as txn:
            begins = lambda: self.seat.transaction().__enter__()
            looks = lambda: self.seat.snapshot().__enter__()
            for call in (self.seat.collect, self.seat.rest, lambda: self.seat.hear(0), begins, looks):
                with self.assertRaises(cicada.MisusedError):
                    call()
            txn.put(0, 1, ROW)
        for call in (lambda: txn.get(0, 1), lambda: txn.put(0, 1, ROW), lambda: txn.list(0), lambda: txn.apply([cicada.get(0, 1)])):
            with self.assertRaises(cicada.MisusedError):
                call()
        self.assertEqual(self.here(1), ROW)
        self.seat.close()
        self.seat.close()
        for call in (self.seat.collect, self.seat.counts, lambda: self.here(1)):
            with self.assertRaises(cicada.MisusedError):
                call()

    def test_conflicts(self):
        with self.seat.transaction() as txn:
            txn.put(0, 1, ROW)
        self.other.hear(txn.stamp)
        with self.assertRaises(cicada.ConflictError) as caught:
            with self.seat.transaction() as mine:
                mine.get(0, 1)
                with self.other.transaction() as theirs:
                    theirs.put(0, 1, (9,))
                mine.put(0, 1, (8,))
        self.assertGreater(caught.exception.stamp, 0)
        self.seat.hear(caught.exception.stamp)
        self.assertEqual(self.here(1)[0], 9)

        class Hidden(Exception):
            pass

        tries = []

        def body(txn):
            tries.append(1)
            there = txn.get(0, 1)
            if len(tries) == 1:
                with self.other.transaction() as theirs:
                    theirs.put(0, 1, (there[0] + 1,))
            try:
                txn.put(0, 1, (there[0] + 1,))
            except cicada.CicadaError as error:
                raise Hidden from error

        self.seat.transact(body)
        self.assertEqual(self.here(1)[0], 11)
        self.assertGreater(len(tries), 1)

    def test_records_out(self):
        with cicada.Engine(rows=8) as engine:
            seat = engine.seats[0]

            def body(txn):
                for key in range(100):
                    txn.put(0, key, ROW)

            with self.assertRaises(cicada.RecordsOutError):
                seat.transact(body)

            def goes_on(txn):
                try:
                    body(txn)
                except cicada.CicadaError:
                    pass

            with self.assertRaises(cicada.RecordsOutError):
                seat.transact(goes_on)
            self.assertEqual(seat.transact(lambda txn: txn.count(0)), 0)

    def test_two_threads_in_one_seat(self):
        for part in range(10):
            with self.seat.transaction() as txn:
                for key in range(300):
                    txn.put(2, 300 * part + key, ROW)
        busy = []

        def go():
            for _ in range(100):
                try:
                    with self.seat.transaction() as txn:
                        txn.count(2)
                except cicada.CicadaError as error:
                    busy.append(type(error))

        threads = [threading.Thread(target=go) for _ in range(4)]
        for thread in threads:
            thread.start()
        for thread in threads:
            thread.join()
        self.assertLessEqual({*busy}, {cicada.BusyError, cicada.MisusedError, cicada.ConflictError})
        try:
            self.seat.close()
        except cicada.CicadaError:
            self.fail("the seat is stuck")

    def test_threads_with_inserts_and_removes(self):
        keys, rounds = 32, 400
        with cicada.Engine(seats=4, rows=20_000) as engine:

            def work(seat, me):
                chance = random.Random(me)

                def body(txn):
                    for key in chance.sample(range(keys), 2):
                        if not txn.remove(0, key):
                            txn.put(0, key, (key,))

                for _ in range(rounds):
                    seat.transact(body)

            threads = [threading.Thread(target=work, args=(seat, me)) for me, seat in enumerate(engine.seats)]
            for thread in threads:
                thread.start()
            for thread in threads:
                thread.join()
            rows = engine.seats[0].transact(lambda txn: txn.list(0))
            self.assertTrue(all(row[0] == key for key, row in rows))
            self.assertEqual(sum(seat.counts()[0] for seat in engine.seats), 4 * rounds + 1)

    def test_seats_that_go_round(self):
        with cicada.Engine(seats=2, rows=1000) as engine:
            for turn in range(6):
                with engine.seat() as seat:
                    self.assertIs(seat, engine.seats[turn % 2])
                    # (the one before it was another seat)
                    self.assertEqual(seat.transact(lambda txn: txn.get(0, 1)), (turn, 0, 0, 0, 0, 0) if turn else None)
                    seat.transact(lambda txn: txn.put(0, 1, (turn + 1,)))
            with engine.seat(), engine.seat():
                with self.assertRaises(cicada.BusyError), engine.seat():
                    pass
            with self.assertRaises(ZeroDivisionError), engine.seat() as seat, seat.transaction() as txn:
                txn.put(0, 1, (1 // 0,))
            with engine.seat() as one, engine.seat() as two:
                self.assertIsNot(one, two)
            for call in (engine.seats[0].collect, engine.seats[0].close, engine.share):
                self.assertRaises(cicada.MisusedError, call)
        engine.close()
        with self.assertRaises(cicada.MisusedError), engine.seat():
            pass

    def test_seats_do_not_go_round_while_one_has_something_open(self):
        with self.seat.transaction(), self.assertRaises(cicada.MisusedError):
            self.engine.share()
        self.engine.share()
        with self.engine.seat() as seat:
            seat.close()
        with self.engine.seat() as seat:
            self.assertIs(seat, self.other)

    def test_threads_that_share_seats(self):
        threads, turns = 6, 100
        with cicada.Engine(seats=2, rows=1000) as engine:

            def work():
                for _ in range(turns):
                    while True:
                        try:
                            with engine.seat() as seat:
                                seat.transact(lambda txn: txn.put(0, 1, ((txn.get(0, 1) or (0,))[0] + 1,)))
                            break
                        except cicada.BusyError:
                            time.sleep(0)

            working = [threading.Thread(target=work) for _ in range(threads)]
            for thread in working:
                thread.start()
            for thread in working:
                thread.join()
            with engine.seat() as seat:
                self.assertEqual(seat.transact(lambda txn: txn.get(0, 1))[0], threads * turns)

    def test_an_engine_that_is_let_go(self):
        for turn in range(50):
            engine = cicada.Engine(seats=8, rows=1000)
            if turn % 2:
                engine.share()
        gc.collect()


if __name__ == "__main__":
    unittest.main()
