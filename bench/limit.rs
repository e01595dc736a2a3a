//! The script of `load N` in plain Rust that promises nothing, with the structures that come to mind: the movements of each item in
//! each warehouse stand in a vector in posting order, and each revaluation goes over all movements from nothing.
//!
//! `limit 40000` prints what is held and what it is worth then, the nanoseconds, and those of a late receipt with its revaluation.
use std::collections::VecDeque;
use std::time::Instant;

const ITEMS: usize = 2;
const STORES: usize = 2;
const TURNS_AFTER: u64 = 1_000;

/// Posting order: the day, the second, the voucher, the line, and what leaves before what enters.
type Place = (u64, u64, u64, u64, bool);

#[derive(Clone, Copy)]
struct Movement {
    place: Place,
    item: usize,
    store: usize,
    units: u64,
    /// Of a receipt; a transfer enters with what it left with.
    amount: Option<u64>,
}

impl Movement {
    fn enters(&self) -> bool {
        self.place.4
    }
}

#[derive(Default)]
struct Ledger {
    movements: Vec<Movement>,
    /// What each movement of an item in a warehouse changes of what is held.
    changes: [[Vec<(Place, i64)>; STORES]; ITEMS],
}

/// What is held of an item in a warehouse, in layers or at its average.
#[derive(Default)]
struct Held {
    layers: VecDeque<(u64, u64)>,
    units: u64,
    value: u64,
}

impl Held {
    fn enter(&mut self, units: u64, value: u64) {
        self.layers.push_back((units, value));
        self.units += units;
        self.value += value;
    }

    fn leave_first(&mut self, mut units: u64) -> u64 {
        let mut cost = 0;
        while units > 0 {
            let (held, value) = self.layers.front_mut().expect("enough is held");
            let taken = units.min(*held);
            let part = *value * taken / *held;
            *held -= taken;
            *value -= part;
            cost += part;
            units -= taken;
            if *held == 0 {
                self.layers.pop_front();
            }
        }
        self.value -= cost;
        cost
    }

    fn leave(&mut self, item: usize, units: u64) -> u64 {
        let cost = if item == 0 {
            self.leave_first(units)
        } else {
            let cost = if units == self.units { self.value } else { (2 * self.value * units + self.units) / (2 * self.units) };
            self.value -= cost;
            cost
        };
        self.units -= units;
        cost
    }
}

impl Ledger {
    /// Posts movements, unless something would be lacking at some time.
    fn post(&mut self, movements: &[Movement]) {
        for it in movements {
            let changes = &mut self.changes[it.item][it.store];
            let at = changes.partition_point(|(place, _)| *place < it.place);
            let change = it.units as i64;
            changes.insert(at, (it.place, if it.enters() { change } else { -change }));
            let mut held = 0;
            let is_short = |(_, change): &(Place, i64)| {
                held += change;
                held < 0
            };
            assert!(!changes.iter().any(is_short), "something is lacking");
            self.movements.push(*it);
        }
    }

    /// Values all movements from nothing, and returns what is held and what it is worth.
    fn revalue(&mut self) -> (u64, u64) {
        self.movements.sort_unstable_by_key(|it| it.place);
        let mut held: [[Held; STORES]; ITEMS] = Default::default();
        let mut on_the_way = 0;
        for it in &self.movements {
            let own = &mut held[it.item][it.store];
            if it.enters() {
                own.enter(it.units, it.amount.unwrap_or(on_the_way));
            } else {
                on_the_way = own.leave(it.item, it.units);
            }
        }
        let all = || held.iter().flatten();
        (all().map(|it| it.units).sum(), all().map(|it| it.value).sum())
    }
}

fn voucher(k: u64) -> Vec<Movement> {
    let (day, second, number) = (2 + 17 * k % 27, k % 60, k + 5);
    let item = (k / 4 % 2) as usize;
    let movement = |enters, store, amount| Movement { place: (day, second, number, 1, enters), item, store, units: 1, amount };
    match k % 4 {
        0 => vec![movement(true, 0, Some(k % 100 + 1))],
        3 => vec![movement(false, 0, None), movement(true, 1, None)],
        _ => vec![movement(false, 0, None)],
    }
}

fn main() {
    let count: u64 = std::env::args().nth(1).and_then(|it| it.parse().ok()).expect("a number of vouchers");
    let begin = Instant::now();
    let mut ledger = Ledger::default();
    let first: Vec<_> = (0..4)
        .map(|at| Movement {
            place: (1, 0, 5, at as u64 + 1, true),
            item: at / STORES,
            store: at % STORES,
            units: count,
            amount: Some(10 * count),
        })
        .collect();
    ledger.post(&first);
    for k in 1..=count {
        ledger.post(&voucher(k));
        if k % TURNS_AFTER == 0 {
            ledger.revalue();
        }
    }
    let (stock, worth) = ledger.revalue();
    let whole = begin.elapsed().as_nanos();
    let begin = Instant::now();
    ledger.post(&[Movement { place: (1, 1, count + 5, 1, true), item: 0, store: 0, units: 1, amount: Some(7) }]);
    ledger.revalue();
    println!("{stock} {worth} {whole} {}", begin.elapsed().as_nanos());
}
