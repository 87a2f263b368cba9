"""Threads move amounts between accounts, and snapshots add them up beside them: each sum has to be what was put in.

    PYTHONPATH=bindings/python CICADA_LIBRARY=DIR/lib/libcicada.so python3 bank.py [TRANSFERS]
"""
import sys
import threading

import cicada

ACCOUNTS, OPENING, TABLE = 64, 1000, 0


def transfer(txn: cicada.Transaction, giver: int, taker: int, amount: int) -> None:
    there = txn.get(TABLE, giver)
    amount = min(amount, there[0]) if there else 0
    txn.apply([cicada.subtract(TABLE, giver, (amount,)), cicada.add(TABLE, taker, (amount,))])


def work(seat: cicada.Seat, me: int, transfers: int, sums: list[int]) -> None:
    for i in range(transfers):
        giver = (me * 31 + i * 7) % ACCOUNTS
        seat.transact(lambda txn: transfer(txn, giver, (giver + 1 + i * 13 % 63) % ACCOUNTS, i % 50))
        if i % 256 == 255:
            with seat.snapshot() as view:
                rows = view.list(TABLE)
            if rows:
                sums.append(sum(row[0] for _, row in rows))


def main() -> int:
    transfers = int(sys.argv[1]) if len(sys.argv) > 1 else 2000
    with cicada.Engine(seats=4, rows=10_000) as engine:
        with engine.seats[0].transaction() as txn:
            for key in range(ACCOUNTS):
                txn.put(TABLE, key, (OPENING,))
        for seat in engine.seats[1:]:
            seat.hear(txn.stamp)
        sums: list[int] = []
        threads = [threading.Thread(target=work, args=(seat, me, transfers, sums)) for me, seat in enumerate(engine.seats)]
        for thread in threads:
            thread.start()
        for thread in threads:
            thread.join()
    wrong = sum(it != ACCOUNTS * OPENING for it in sums)
    print(f"{4 * transfers} transfers, {wrong} wrong sums")
    return 1 if wrong or not sums else 0


if __name__ == "__main__":
    sys.exit(main())
