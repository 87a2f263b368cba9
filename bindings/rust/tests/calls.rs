//! What a careless caller meets.
use cicada::{Columns, Engine, Error, Read, Row, Sizes};
use std::panic::{catch_unwind, AssertUnwindSafe};

const ROW: Columns = [1, 2, 3, 4, 5, 6];

fn one() -> cicada::Seat {
    Engine::open(1, 1000).unwrap().take().unwrap()
}

#[test]
fn sizes_out_of_range() {
    for (seats, rows, spare) in [(0, 1, 0), (65, 1, 0), (1, 195_889, 0), (1, u32::MAX, 0), (1, 1, 262_145)] {
        assert_eq!(Engine::open_with(Sizes { seats, rows, spare }).err(), Some(Error::Range), "{seats} {rows} {spare}");
    }
    assert_eq!(Engine::open(64, 0).unwrap().into_seats().len(), 64);
}

#[test]
fn seats_go_round() {
    let engine = Engine::open(2, 1000).unwrap();
    for turn in 0..6_u64 {
        let mut seat = engine.take().unwrap();
        let before = seat.transact(|txn| txn.get::<Columns>(0, 1)).unwrap();
        // (the one before it was another seat)
        assert_eq!(before.map(|row| row[0]), (turn > 0).then_some(turn));
        seat.transact(|txn| txn.put(0, 1, &[turn + 1, 0, 0, 0, 0, 0])).unwrap();
        engine.give_back(seat).unwrap();
    }
    let (one, two) = (engine.take().unwrap(), engine.take().unwrap());
    assert!(engine.take().is_none());
    engine.give_back(one).unwrap();
    drop(two);
    assert_eq!(engine.rest(), Ok(()));
    assert_eq!(engine.into_seats().len(), 1);
}

#[test]
fn a_seat_of_another_engine_is_handed_back() {
    let (engine, other) = (Engine::open(1, 100).unwrap(), Engine::open(1, 100).unwrap());
    let seat = other.take().unwrap();
    let mut seat = engine.give_back(seat).unwrap_err();
    assert_eq!(seat.transact(|txn| txn.put(0, 1, &ROW)), Ok(()));
    drop(other);
    assert_eq!(seat.transact(|txn| txn.get::<Columns>(0, 1)), Ok(Some(ROW)));
}

#[test]
fn threads_share_seats() {
    let engine = Engine::open(2, 1000).unwrap();
    std::thread::scope(|scope| {
        for _ in 0..6 {
            scope.spawn(|| {
                for _ in 0..100 {
                    let mut seat = loop {
                        match engine.take() {
                            Some(seat) => break seat,
                            None => std::thread::yield_now(),
                        }
                    };
                    let counted = seat.transact(|txn| {
                        let [count, rest @ ..] = txn.get::<Columns>(0, 1)?.unwrap_or_default();
                        let [a, b, c, d, e] = rest;
                        txn.put(0, 1, &[count + 1, a, b, c, d, e])
                    });
                    assert_eq!(counted, Ok(()));
                    engine.give_back(seat).unwrap();
                }
            });
        }
    });
    let mut seat = engine.take().unwrap();
    assert_eq!(seat.transact(|txn| txn.get::<Columns>(0, 1)).unwrap().unwrap()[0], 600);
}

#[test]
fn a_panic_ends_the_transaction() {
    let mut seat = one();
    let panicked = catch_unwind(AssertUnwindSafe(|| {
        seat.transact(|txn| -> Result<(), Error> {
            txn.put(0, 1, &ROW)?;
            panic!("mine")
        })
    }));
    assert!(panicked.is_err());
    assert_eq!(seat.transact(|txn| txn.get::<Columns>(0, 1)), Ok(None));
}

#[test]
fn an_error_ends_the_transaction() {
    #[derive(Debug, PartialEq)]
    enum Mine {
        Stop,
        Store(Error),
    }
    impl From<Error> for Mine {
        fn from(error: Error) -> Self {
            Mine::Store(error)
        }
    }
    let mut seat = one();
    let answer: Result<(), Mine> = seat.transact(|txn| {
        txn.put(0, 1, &ROW)?;
        Err(Mine::Stop)
    });
    assert_eq!(answer, Err(Mine::Stop));
    assert_eq!(seat.transact(|txn| Ok::<_, Mine>(txn.get::<Columns>(0, 1)?)), Ok(None));
}

#[test]
fn a_table_out_of_range_changes_nothing() {
    let mut seat = one();
    let answer = seat.transact(|txn| {
        assert_eq!(txn.put(8, 1, &ROW), Err(Error::Range));
        assert_eq!(txn.get::<Columns>(u32::MAX, 1), Err(Error::Range));
        txn.put(7, u64::MAX, &ROW)
    });
    assert_eq!(answer, Ok(()));
    assert_eq!(seat.transact(|txn| txn.get(7, u64::MAX)), Ok(Some(ROW)));
}

#[test]
fn want_of_records_is_handed_out() {
    let mut seat = Engine::open(1, 8).unwrap().take().unwrap();
    let answer = seat.transact(|txn| (0..100).try_for_each(|key| txn.put(0, key, &ROW)));
    assert_eq!(answer, Err(Error::RecordsOut));
    assert_eq!(seat.transact(|txn| txn.count(0, ..)), Ok(0));
    // a body that goes on behind it is not let through either
    let answer = seat.transact(|txn| {
        let _lost = (0..100).try_for_each(|key| txn.put(0, key, &ROW));
        Ok::<(), Error>(())
    });
    assert_eq!(answer, Err(Error::RecordsOut));
    assert_eq!(seat.transact(|txn| txn.count(0, ..)), Ok(0));
}

#[test]
fn lists_of_any_length() {
    let mut seat = Engine::open(1, 20_000).unwrap().take().unwrap();
    for part in 0..10 {
        seat.transact(|txn| (0..300).try_for_each(|key| txn.put(3, part * 300 + key, &ROW))).unwrap();
    }
    for most in [0, 1, 255, 256, 257, 512, 2999, 3000, 3001] {
        let rows = seat.transact(|txn| txn.list::<Columns>(3, .., most)).unwrap();
        assert_eq!(rows.len(), most.min(3000));
        assert!(rows.iter().zip(0..).all(|(row, key)| row.0 == key));
    }
    let keys = seat.transact(|txn| txn.rows::<Columns>(3, 100..=612).map(|row| row.map(|row| row.0)).collect::<Result<Vec<_>, Error>>());
    assert_eq!(keys.unwrap(), (100..=612).collect::<Vec<_>>());
    assert_eq!(seat.transact(|txn| txn.count(3, 100..100)), Ok(0));
    assert_eq!(seat.transact(|txn| txn.count(3, 2990..)), Ok(10));
    seat.rest().unwrap();
    assert_eq!(seat.snapshot(|view| view.count(3, ..)), Ok(3000));
}

#[test]
fn rows_by_an_index() {
    let mut seat = one();
    let found = seat.transact(|txn| {
        assert_eq!(txn.find::<Columns>(2, 6, .., 10)?, None);
        assert!(txn.declare_index(2, 6)?);
        assert!(!txn.declare_index(2, 5)?);
        assert_eq!(txn.declare_index(2, 7), Err(Error::Range));
        (0..5).try_for_each(|key| txn.put(2, key, &[0, 0, 0, 0, 0, 100 - key]))?;
        txn.find::<Columns>(2, 6, 97..=99, usize::MAX)
    });
    let keys: Vec<u64> = found.unwrap().unwrap().iter().map(|row| row.0).collect();
    assert_eq!(keys, [3, 2, 1]);
    assert_eq!(seat.transact(|txn| txn.find::<Columns>(2, 6, 5..5, 9)), Ok(Some(Vec::new())));
}

#[test]
fn foreign_rows() {
    #[derive(Debug, PartialEq)]
    struct One(u64);
    impl Row for One {
        fn to_columns(&self) -> Columns {
            [self.0, 0, 0, 0, 0, 0]
        }
        fn from_columns(columns: &Columns) -> Option<Self> {
            (columns[1..] == [0; 5]).then_some(One(columns[0]))
        }
    }
    let mut seat = one();
    seat.transact(|txn| txn.put(0, 9, &ROW)).unwrap();
    assert_eq!(seat.transact(|txn| txn.get::<One>(0, 9)), Err(Error::Foreign { table: 0, key: 9 }));
    assert_eq!(Error::Foreign { table: 0, key: 9 }.to_string(), "the row at key 9 of table 0 is of another type");
}

#[test]
fn a_stamp_that_is_none() {
    let mut seat = one();
    assert_eq!(seat.hear(u64::MAX), Err(Error::Range));
    assert_eq!(Error::Range.to_string(), "a number is out of its range, or a pointer is null");
}
