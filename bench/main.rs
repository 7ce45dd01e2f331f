//! Times calls of calls.rs: on our slices, and on a `FixedBitSet` or in a loop over words by hand.
//! First it compares what both sides return and what they leave. Then it times them in turn. For
//! each cell it prints a line: the call, the order, the number of words, which bits are set, and
//! the least time of each side in nanoseconds.
mod calls;

use fixedbitset::FixedBitSet;
use std::hint::black_box;
use std::ops::Range;
use std::time::Instant;

pub struct Call {
    name: &'static str,
    is_little: bool,
    ours: calls::Ours,
    theirs: fn(&mut Sides, &[u32], Range<usize>) -> u64,
}

/// The sets of the other side, as fixedbitset has them and as words. Index 0 is the rightmost bit
/// of the first word. In `words` and `others`, which the loops by hand read, it is the leftmost bit
/// of the first word if the order is little-endian.
pub struct Sides {
    f: FixedBitSet,
    g: FixedBitSet,
    words: Vec<u64>,
    others: Vec<u64>,
}

// In these loops by hand `L` says whether the order is little-endian.

/// Returns the least index of a set bit, or 64.
fn first<const L: bool>(word: u64) -> u32 {
    if L { word.leading_zeros() } else { word.trailing_zeros() }
}

/// Returns how many bits after the greatest index of a set bit are unset, or 64.
fn after<const L: bool>(word: u64) -> u32 {
    if L { word.trailing_zeros() } else { word.leading_zeros() }
}

/// Moves each set bit to an index that is `by` less.
fn down<const L: bool>(word: u64, by: usize) -> u64 {
    if L { word << by } else { word >> by }
}

/// Moves each set bit to an index that is `by` greater.
fn up<const L: bool>(word: u64, by: usize) -> u64 {
    if L { word >> by } else { word << by }
}

/// Clears the bit `index`, which is the least one that is set.
fn without_first<const L: bool>(word: u64, index: u32) -> u64 {
    if L { word ^ 1 << 63 >> index } else { word & (word - 1) }
}

/// Returns the number whose bit of weight `2 ^ i` is the bit at index `i` of a word, or the word of
/// such a number.
fn number<const L: bool>(word: u64) -> u64 {
    if L { word.reverse_bits() } else { word }
}

/// Returns the word whose first `count` bits are set. The count is from 1 to 64.
fn first_bits<const L: bool>(count: usize) -> u64 {
    if L { u64::MAX << (64 - count) } else { u64::MAX >> (64 - count) }
}

/// Returns the least index from `from` on whose bit is set after each word is combined with `flip`
/// by exclusive or.
fn next<const L: bool>(words: &[u64], from: usize, flip: u64) -> Option<usize> {
    let mut at = from / 64;
    if at >= words.len() {
        return None;
    }
    let mut word = (words[at] ^ flip) & up::<L>(u64::MAX, from % 64);
    while word == 0 {
        at += 1;
        if at == words.len() {
            return None;
        }
        word = words[at] ^ flip;
    }
    Some(at * 64 + first::<L>(word) as usize)
}

pub fn next_one<const L: bool>(words: &[u64], from: usize) -> Option<usize> {
    next::<L>(words, from, 0)
}

pub fn next_zero<const L: bool>(words: &[u64], from: usize) -> Option<usize> {
    next::<L>(words, from, u64::MAX)
}

pub fn select<const L: bool>(words: &[u64], mut rank: usize) -> Option<usize> {
    for (at, word) in words.iter().enumerate() {
        let count = word.count_ones() as usize;
        if rank < count {
            let mut word = *word;
            for _ in 0..rank {
                word = without_first::<L>(word, first::<L>(word));
            }
            return Some(at * 64 + first::<L>(word) as usize);
        }
        rank -= count;
    }
    None
}

/// Returns where the first run of `length` unset bits begins, for a length from 1 to 64.
pub fn zero_run<const L: bool>(words: &[u64], length: u32) -> Option<usize> {
    for (at, word) in words.iter().enumerate() {
        // Bit i of `pair` says that the `covered` bits from bit i on are unset.
        let next = words.get(at + 1).map_or(0, |word| !word);
        let (low, high) = if L { (next, !word) } else { (!word, next) };
        let mut pair = u128::from(low) | u128::from(high) << 64;
        let word_of = |pair: u128| if L { (pair >> 64) as u64 } else { pair as u64 };
        let mut covered = 1;
        while covered < length && word_of(pair) != 0 {
            let more = covered.min(length - covered);
            pair &= if L { pair << more } else { pair >> more };
            covered += more;
        }
        if word_of(pair) != 0 {
            return Some(at * 64 + first::<L>(word_of(pair)) as usize);
        }
    }
    None
}

/// Returns where the first run of `length` unset bits begins, for a length of more than 64. Such a
/// run begins right after the last set bit of a word, or at index 0.
pub fn long_zero_run<const L: bool>(words: &[u64], length: usize) -> Option<usize> {
    let mut start = 0;
    for (at, word) in words.iter().enumerate() {
        if at * 64 + first::<L>(*word) as usize >= start + length {
            return Some(start);
        }
        if *word != 0 {
            start = at * 64 + 64 - after::<L>(*word) as usize;
        }
    }
    None
}

/// Moves each set bit 13 places down.
pub fn shift_down<const L: bool>(words: &mut [u64]) {
    for at in 0..words.len() {
        let next = words.get(at + 1).map_or(0, |word| up::<L>(*word, 51));
        words[at] = down::<L>(words[at], 13) | next;
    }
}

/// Moves each set bit 13 places up.
pub fn shift_up<const L: bool>(words: &mut [u64]) {
    for at in (0..words.len()).rev() {
        let before = if at == 0 { 0 } else { down::<L>(words[at - 1], 51) };
        words[at] = up::<L>(words[at], 13) | before;
    }
}

/// Moves each set bit down by `by` places. Those that pass index 0 go on from the last index.
pub fn turn<const L: bool>(words: &mut [u64], by: usize) {
    let by = by % (words.len() * 64);
    words.rotate_left(by / 64);
    if by % 64 > 0 {
        let mut next = words[0];
        for word in words.iter_mut().rev() {
            let moved = down::<L>(*word, by % 64) | up::<L>(next, 64 - by % 64);
            next = *word;
            *word = moved;
        }
    }
}

/// Returns a word whose first `count` bits are the bits from an index on, and whose other bits are
/// unset. The count is from 1 to 64.
fn bits<const L: bool>(words: &[u64], from: usize, count: usize) -> u64 {
    let (at, place) = (from / 64, from % 64);
    let low = words.get(at).map_or(0, |word| down::<L>(*word, place));
    let next = if place + count > 64 { words.get(at + 1) } else { None };
    let next = next.map_or(0, |word| up::<L>(*word, 64 - place));
    (low | next) & first_bits::<L>(count)
}

/// Writes the first `count` bits of a word, whose others are unset, to the indexes from `from` on.
/// The count is from 1 to 64.
fn put_bits<const L: bool>(words: &mut [u64], from: usize, count: usize, bits: u64) {
    let (at, place, mask) = (from / 64, from % 64, first_bits::<L>(count));
    words[at] = words[at] & !up::<L>(mask, place) | up::<L>(bits, place);
    if place + count > 64 {
        let done = 64 - place;
        words[at + 1] = words[at + 1] & !down::<L>(mask, done) | down::<L>(bits, done);
    }
}

/// Returns the number in `count` bits from an index on. The count is from 1 to 64.
pub fn load<const L: bool>(words: &[u64], from: usize, count: usize) -> u64 {
    number::<L>(bits::<L>(words, from, count))
}

/// Writes the `count` lowest bits of a number at the indexes from `from` on. The count is at most
/// 64.
pub fn store<const L: bool>(words: &mut [u64], from: usize, count: usize, value: u64) {
    if count > 0 {
        let bits = number::<L>(value) & first_bits::<L>(count);
        put_bits::<L>(words, from, count, bits);
    }
}

/// Copies a range of other words to the indexes from 0 on.
pub fn copy_range<const L: bool>(words: &mut [u64], others: &[u64], range: Range<usize>) {
    for (at, from) in range.clone().step_by(64).enumerate() {
        let count = (range.end - from).min(64);
        put_bits::<L>(words, at * 64, count, bits::<L>(others, from, count));
    }
}

/// Copies a range to the indexes from 0 on.
pub fn copy_within<const L: bool>(words: &mut [u64], range: Range<usize>) {
    for (at, from) in range.clone().step_by(64).enumerate() {
        let count = (range.end - from).min(64);
        put_bits::<L>(words, at * 64, count, bits::<L>(words, from, count));
    }
}

/// Returns the sum of the indexes of the set bits in a range.
pub fn sum_in<const L: bool>(words: &[u64], range: Range<usize>) -> u64 {
    let mut sum = 0u64;
    if range.is_empty() {
        return sum;
    }
    let (begin, end) = (range.start / 64, (range.end - 1) / 64);
    for (at, word) in words.iter().enumerate().take(end + 1).skip(begin) {
        let mut word = *word;
        if at == begin {
            word &= up::<L>(u64::MAX, range.start % 64);
        }
        if at == end {
            word &= first_bits::<L>((range.end - 1) % 64 + 1);
        }
        while word != 0 {
            let index = first::<L>(word);
            sum = sum.wrapping_add(at as u64 * 64 + u64::from(index));
            word = without_first::<L>(word, index);
        }
    }
    sum
}

/// Returns a number that depends on where each run of set bits begins and ends. A bit that differs
/// from the bit before it begins a run or ends one.
pub fn run_ends<const L: bool>(words: &[u64]) -> u64 {
    let add = |sum: u64, start: u64, end: u64| {
        sum.wrapping_mul(3).wrapping_add(start).wrapping_add(end)
    };
    let (mut sum, mut start, mut before) = (0, None, 0);
    for (at, word) in words.iter().enumerate() {
        let mut edges = *word ^ (up::<L>(*word, 1) | before);
        before = down::<L>(*word, 63);
        while edges != 0 {
            let index = first::<L>(edges);
            edges = without_first::<L>(edges, index);
            let index = at as u64 * 64 + u64::from(index);
            start = match start {
                None => Some(index),
                Some(start) => {
                    sum = add(sum, start, index);
                    None
                }
            };
        }
    }
    start.map_or(sum, |start| add(sum, start, words.len() as u64 * 64))
}

/// Clears the set bits whose index is odd, one by one.
pub fn keep_even<const L: bool>(words: &mut [u64]) {
    for word in words {
        let mut rest = *word;
        while rest != 0 {
            let index = first::<L>(rest);
            rest = without_first::<L>(rest, index);
            if index % 2 == 1 {
                *word &= !up::<L>(if L { 1 << 63 } else { 1 }, index as usize);
            }
        }
    }
}

pub fn count_ones(words: &[u64]) -> u64 {
    words.iter().map(|word| u64::from(word.count_ones())).sum()
}

pub fn count_alone(words: &[u64], others: &[u64]) -> u64 {
    words.iter().zip(others).map(|(word, other)| u64::from((word & !other).count_ones())).sum()
}

/// Returns the next number of a fixed sequence.
fn random(state: &mut u64) -> u64 {
    *state = state.wrapping_add(0x9E3779B97F4A7C15);
    let z = (*state ^ (*state >> 30)).wrapping_mul(0xBF58476D1CE4E5B9);
    let z = (z ^ (z >> 27)).wrapping_mul(0x94D049BB133111EB);
    z ^ (z >> 31)
}

/// Returns words in which each bit is set with a chance of 1 in 64 or 1 in 2, or always.
fn words(state: &mut u64, n: usize, bits: &str) -> Vec<u64> {
    let turns = match bits {
        "sparse" => 6,
        "half" => 1,
        _ => 0,
    };
    (0..n).map(|_| (0..turns).fold(u64::MAX, |word, _| word & random(state))).collect()
}

fn fixed(words: &[u64]) -> FixedBitSet {
    let blocks = words.iter().flat_map(|word| [*word as u32, (*word >> 32) as u32]);
    FixedBitSet::with_capacity_and_blocks(words.len() * 64, blocks)
}

fn in_order(words: &[u64], is_little: bool) -> Vec<u64> {
    words.iter().map(|word| if is_little { word.reverse_bits() } else { *word }).collect()
}

/// What the calls of both sides are given in one cell: the sets, the indexes and the ranges.
struct Cell<'a> {
    call: &'a Call,
    left: Vec<u64>,
    right: Vec<u64>,
    sides: Sides,
    indexes: Vec<u32>,
    ranges: Vec<Range<u32>>,
}

impl<'a> Cell<'a> {
    fn new(call: &'a Call, n: usize, bits: &str) -> Cell<'a> {
        let state = &mut 2026;
        let mut left = words(state, n, bits);
        let mut right = words(state, n, bits);
        match call.name {
            "all_zeros*" => left.fill(0),
            "eq" | "eq*" => right.clone_from(&left),
            "is_subset" => right.iter_mut().zip(&left).for_each(|(r, l)| *r |= l),
            "is_disjoint" => right.iter_mut().zip(&left).for_each(|(r, l)| *r &= !l),
            _ => {}
        }
        let capacity = n as u64 * 64;
        let loops = matches!(
            call.name,
            "insert" | "remove" | "toggle" | "try_insert" | "contains_index"
        );
        let indexes = if loops { 4096 } else { 0 };
        let ranges = if loops { 1 } else { 64 };
        let range = |state: &mut u64| {
            let (a, b) = (random(state) % (capacity + 1), random(state) % (capacity + 1));
            a.min(b) as u32..a.max(b) as u32
        };
        Cell {
            call,
            sides: Sides {
                f: fixed(&left),
                g: fixed(&right),
                words: in_order(&left, call.is_little),
                others: in_order(&right, call.is_little),
            },
            left: in_order(&left, call.is_little),
            right: in_order(&right, call.is_little),
            indexes: (0..indexes).map(|_| (random(state) % capacity) as u32).collect(),
            ranges: (0..ranges).map(|_| range(state)).collect(),
        }
    }

    fn ours(&mut self) -> u64 {
        let ours = black_box(self.call.ours);
        let (n, m, k) = (self.left.len(), self.right.len(), self.indexes.len());
        self.ranges.iter().fold(0, |sum: u64, range| {
            let (a, b) = (self.left.as_mut_ptr(), self.right.as_ptr());
            // The lengths are those of the vectors, and the range lies below the capacity.
            let it = unsafe { ours(a, n, range.start, range.end, b, m, self.indexes.as_ptr(), k) };
            sum.wrapping_mul(3).wrapping_add(it)
        })
    }

    fn theirs(&mut self) -> u64 {
        let theirs = black_box(self.call.theirs);
        self.ranges.iter().fold(0, |sum: u64, range| {
            let at = range.start as usize..range.end as usize;
            let it = theirs(&mut self.sides, &self.indexes, at);
            sum.wrapping_mul(3).wrapping_add(it)
        })
    }

    /// Makes the calls once on both sides, and stops the program where they differ.
    fn compare(&mut self) {
        assert_eq!(self.ours(), self.theirs(), "{} returns another value", self.call.name);
        let is_same = if self.call.name.ends_with('*') {
            self.left == self.sides.words
        } else {
            fixed(&in_order(&self.left, self.call.is_little)) == self.sides.f
        };
        assert!(is_same, "{} leaves another set", self.call.name);
    }
}

fn sample(turns: u32, mut run: impl FnMut() -> u64) -> f64 {
    let start = Instant::now();
    for _ in 0..turns {
        black_box(run());
    }
    start.elapsed().as_nanos() as f64 / f64::from(turns)
}

/// Returns the time of five cycles. A step is a shift, an exclusive or and a product (three
/// cycles), each of which waits for the one before.
fn five_cycles() -> f64 {
    let steps = 100_000;
    (0..50).fold(f64::MAX, |least, seed| {
        let run = || (0..steps).fold(black_box(seed), |x: u64, _| (x ^ x >> 1).wrapping_mul(ODD));
        least.min(sample(1, run) / f64::from(steps))
    })
}

const ODD: u64 = 6364136223846793005;

fn main() {
    let five = five_cycles();
    println!("five cycles\tbe\t0\tnone\t{five:.4}\t{five:.4}");
    for call in calls::CALLS {
        for n in [1, 4, 64, 4096] {
            for bits in ["sparse", "half", "full"] {
                let mut cell = Cell::new(call, n, bits);
                cell.compare();
                let one = sample(2, || cell.ours()).max(sample(2, || cell.theirs()));
                let turns = (30_000.0 / one).clamp(1.0, 2_000.0) as u32;
                let (mut ours, mut theirs) = (f64::MAX, f64::MAX);
                for _ in 0..(2_000_000.0 / (one * f64::from(turns))).clamp(5.0, 40.0) as u32 {
                    ours = ours.min(sample(turns, || cell.ours()));
                    theirs = theirs.min(sample(turns, || cell.theirs()));
                }
                let order = if call.is_little { "le" } else { "be" };
                println!("{}\t{order}\t{n}\t{bits}\t{ours:.2}\t{theirs:.2}", call.name);
            }
        }
    }
}
