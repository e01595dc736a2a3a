//! The movements of `parts_bench late` in plain Rust that promises nothing: those of one item in one warehouse stand in a list in posting
//! order. A receipt comes late, before all of them, and one pass values them again.
//!
//! `late fifo 50000` prints how many movements were valued at first and a number that their values make in order, the same of those
//! that the late receipt touches, and the nanoseconds of the pass, the best of several.
use std::collections::VecDeque;
use std::time::Instant;

const REPETITIONS: usize = 20;
const LINES: u64 = 100;
const MOST_UNITS: u64 = 20;
const MOST_LEAVING: u64 = 19;
const LEAST_PRICE: u64 = 500;
const PRICES: u64 = 1_000;
const LATE_UNITS: u64 = 7;
const LATE_AMOUNT: u64 = 9_001;

#[derive(Clone, Copy, PartialEq, Eq)]
enum Method {
    Fifo,
    Average,
}

#[derive(Clone, Copy)]
struct Movement {
    second: u32,
    voucher: u32,
    line: u32,
    enters: bool,
    units: u64,
    /// Of a receipt.
    amount: u64,
    value: u64,
}

struct Layer {
    value: u64,
    units: u64,
    taken: u64,
}

struct Numbers {
    seed: u64,
}

impl Numbers {
    fn next(&mut self, bound: u64) -> u64 {
        self.seed = self.seed.wrapping_mul(6_364_136_223_846_793_005).wrapping_add(1_442_695_040_888_963_407);
        (self.seed >> 33) % bound
    }
}

/// Vouchers of 100 lines, in turn receipts and issues. What is issued is there: each line leaves a unit for each line after it.
fn movements(count: u64) -> Vec<Movement> {
    let mut numbers = Numbers { seed: 1 };
    let mut held = 0;
    let mut all = Vec::new();
    for number in 0..count {
        let (voucher, line) = (number / LINES, number % LINES);
        let enters = voucher % 2 == 0;
        let (units, amount) = if enters {
            let units = numbers.next(MOST_UNITS) + 1;
            (units, units * (LEAST_PRICE + numbers.next(PRICES)))
        } else {
            ((numbers.next(MOST_LEAVING) + 1).min(held - (LINES - 1 - line)), 0)
        };
        held = if enters { held + units } else { held - units };
        all.push(Movement {
            second: voucher as u32 + 1,
            voucher: voucher as u32 + 3,
            line: line as u32 + 1,
            enters,
            units,
            amount,
            value: 0,
        });
    }
    all
}

fn late(count: u64) -> Movement {
    Movement {
        second: 0,
        voucher: count.div_ceil(LINES) as u32 + 3,
        line: 1,
        enters: true,
        units: LATE_UNITS,
        amount: LATE_AMOUNT,
        value: 0,
    }
}

/// The first units' share of a total, rounded down.
fn share(total: u64, first: u64, whole: u64) -> u64 {
    (u128::from(total) * u128::from(first) / u128::from(whole)) as u64
}

/// What the units cost, first in, first out.
fn taken(layers: &mut VecDeque<Layer>, units: u64) -> u64 {
    let (mut left, mut value) = (units, 0);
    while left > 0 {
        let layer = layers.front_mut().expect("enough units");
        let take = left.min(layer.units - layer.taken);
        value += share(layer.value, layer.taken + take, layer.units) - share(layer.value, layer.taken, layer.units);
        layer.taken += take;
        left -= take;
        if layer.taken == layer.units {
            layers.pop_front();
        }
    }
    value
}

fn value_first_in(movements: &mut [Movement]) {
    let mut layers = VecDeque::new();
    for it in movements {
        if it.enters {
            it.value = it.amount;
            layers.push_back(Layer { value: it.value, units: it.units, taken: 0 });
        } else {
            it.value = taken(&mut layers, it.units);
        }
    }
}

/// What units of those that are held cost at the moving average, rounded half up. The last ones take all.
fn average(value: u64, take: u64, units: u64) -> u64 {
    if take == units {
        return value;
    }
    let doubled = 2 * u128::from(value) * u128::from(take) + u128::from(units);
    (doubled / (2 * u128::from(units))) as u64
}

fn value_average(movements: &mut [Movement]) {
    let (mut units, mut value) = (0, 0);
    for it in movements {
        if it.enters {
            it.value = it.amount;
            units += it.units;
            value += it.value;
        } else {
            it.value = average(value, it.units, units);
            units -= it.units;
            value -= it.value;
        }
    }
}

fn value(method: Method, movements: &mut [Movement]) {
    match method {
        Method::Fifo => value_first_in(movements),
        Method::Average => value_average(movements),
    }
}

/// How many movements these are, and a number that their values make in order.
fn told<'a>(movements: impl Iterator<Item = &'a Movement>) -> String {
    let (mut count, mut all) = (0u64, 0u64);
    for it in movements {
        count += 1;
        all = all.wrapping_mul(31).wrapping_add(it.value);
    }
    format!("{count} {all}")
}

/// Whether the late receipt touches the movement: it is the receipt, or it comes later and its value or what is held after it is
/// found anew. First in, first out that is what leaves.
fn is_touched(method: Method, late: u32, it: &Movement) -> bool {
    method == Method::Average || it.voucher == late || !it.enters
}

fn main() {
    let words: Vec<String> = std::env::args().skip(1).collect();
    let method = if words[0] == "fifo" { Method::Fifo } else { Method::Average };
    let count: u64 = words[1].parse().unwrap();
    let mut first = movements(count);
    value(method, &mut first);
    let late = late(count);
    let (mut best, mut last) = (u128::MAX, Vec::new());
    for _ in 0..REPETITIONS {
        let mut all = first.clone();
        let place = all.partition_point(|it| (it.second, it.voucher, it.line) < (late.second, late.voucher, late.line));
        all.insert(place, late);
        let begin = Instant::now();
        value(method, &mut all);
        best = best.min(begin.elapsed().as_nanos());
        last = all;
    }
    let touched = told(last.iter().filter(|it| is_touched(method, late.voucher, it)));
    println!("{} {touched} {best}", told(first.iter()));
}
