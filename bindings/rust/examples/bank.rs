//! Threads move amounts between accounts, and snapshots add them up beside them: each sum has to be what was put in.
use cicada::{Columns, Engine, Error, Read, Row, Seat};
use std::thread;

const ACCOUNTS: u64 = 64;
const OPENING: u64 = 1000;
const TABLE: u32 = 0;

struct Account {
    owner: u64,
    balance: u64,
}

impl Row for Account {
    fn to_columns(&self) -> Columns {
        [self.owner, self.balance, 0, 0, 0, 0]
    }

    fn from_columns(columns: &Columns) -> Option<Self> {
        match *columns {
            [owner, balance, 0, 0, 0, 0] => Some(Account { owner, balance }),
            _ => None,
        }
    }
}

fn transfer(seat: &mut Seat, from: u64, to: u64, amount: u64) -> Result<(), Error> {
    seat.transact(|txn| {
        let Some(mut giver) = txn.get::<Account>(TABLE, from)? else { return Ok(()) };
        let Some(mut taker) = txn.get::<Account>(TABLE, to)? else { return Ok(()) };
        let moved = amount.min(giver.balance);
        giver.balance -= moved;
        taker.balance += moved;
        txn.put(TABLE, from, &giver)?;
        txn.put(TABLE, to, &taker)
    })
}

// The sum in a snapshot; none where that is older than the accounts.
fn sum(seat: &mut Seat) -> Result<Option<u64>, Error> {
    seat.snapshot(|view| {
        let rows = view.list::<Account>(TABLE, .., usize::MAX)?;
        Ok((!rows.is_empty()).then(|| rows.iter().map(|(_, account)| account.balance).sum()))
    })
}

fn work(mut seat: Seat, me: u64, transfers: u64) -> Result<(u64, u64), Error> {
    let (mut x, mut seen, mut wrong) = (88172645463325252 + me * 7919, 0, 0);
    for i in 0..transfers {
        x ^= x << 13;
        x ^= x >> 7;
        x ^= x << 17;
        let from = x % ACCOUNTS;
        transfer(&mut seat, from, (from + 1 + (x >> 20) % (ACCOUNTS - 1)) % ACCOUNTS, (x >> 40) % 50)?;
        if i % 512 == 511 {
            if let Some(sum) = sum(&mut seat)? {
                seen += 1;
                wrong += u64::from(sum != ACCOUNTS * OPENING);
            }
        }
    }
    Ok((seen, wrong))
}

fn main() -> Result<(), Error> {
    let threads = 4;
    let transfers = std::env::args().nth(1).and_then(|word| word.parse().ok()).unwrap_or(10_000);
    let mut seats = Engine::open(threads, 10_000)?.into_seats();
    seats[0].transact(|txn| {
        (0..ACCOUNTS).try_for_each(|owner| txn.put(TABLE, owner, &Account { owner, balance: OPENING }))
    })?;
    // (whoever has to see this commit hears of it first)
    let stamp = seats[0].rest()?;
    seats.iter_mut().skip(1).try_for_each(|seat| seat.hear(stamp))?;
    let workers: Vec<_> =
        seats.into_iter().zip(0..).map(|(seat, me)| thread::spawn(move || work(seat, me, transfers))).collect();
    let (mut seen, mut wrong) = (0, 0);
    for worker in workers {
        let (s, w) = worker.join().expect("no worker panics")?;
        seen += s;
        wrong += w;
    }
    println!("{} transfers, {wrong} wrong sums", transfers * threads as u64);
    assert!(seen > 0 && wrong == 0);
    Ok(())
}
