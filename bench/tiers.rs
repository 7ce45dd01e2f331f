//! Times sets with a summary beside a plain map, a hierarchical bitmap by hand and a list of the
//! free pages. First it compares what they return. For each cell it prints a line: what is done,
//! how many numbers there are, which are set, the form, and the least time in nanoseconds.
mod tiers_calls;

use std::hint::black_box;
use std::time::Instant;

/// The pages that are given back at a time. As many are taken then.
pub type Batch = [u32; 16];

/// A call that gives pages back and takes as many, in an allocator whose taken pages are those of a
/// map.
type Turns<const W: usize> = unsafe extern "C" fn(&[u64; W], *const Batch, usize, u32) -> u64;
type Walk<const W: usize> = unsafe extern "C" fn(&[u64; W], u32) -> u64;
type WalkBoth<const W: usize> = unsafe extern "C" fn(&[u64; W], &[u64; W], u32) -> u64;

/// The calls of our three forms, each with the name of its form.
type Forms<C> = [(&'static str, C); 3];

/// Our calls on maps of `W` words.
pub struct Calls<const W: usize> {
    turns: Forms<Turns<W>>,
    pages: Forms<Turns<W>>,
    walk: Forms<Walk<W>>,
    walk_both: Forms<WalkBoth<W>>,
}

/// A bitmap of up to three levels. `words` has a bit for each number, `middle` has one for each
/// word that is not 0, and `top` has one for each word of `middle` that is not 0, if there are
/// several.
#[derive(Clone)]
struct ByHand<const W: usize, const M: usize> {
    words: [u64; W],
    middle: [u64; M],
    top: u64,
}

impl<const W: usize, const M: usize> ByHand<W, M> {
    fn new(words: &[u64; W]) -> Self {
        let mut set = ByHand { words: *words, middle: [0; M], top: 0 };
        for (k, word) in words.iter().enumerate() {
            set.middle[k / 64] |= u64::from(*word != 0) << (k % 64);
        }
        for (k, word) in set.middle.iter().enumerate() {
            set.top |= u64::from(*word != 0) << k;
        }
        set
    }

    #[inline(always)]
    fn insert(&mut self, index: u32) {
        let k = index as usize / 64 % W;
        self.words[k] |= 1 << (index % 64);
        self.middle[k / 64 % M] |= 1 << (k % 64);
        if M > 1 {
            self.top |= 1 << (k / 64);
        }
    }

    #[inline(always)]
    fn remove(&mut self, index: u32) {
        let k = index as usize / 64 % W;
        self.words[k] &= !(1 << (index % 64));
        if self.words[k] == 0 {
            let middle = &mut self.middle[k / 64 % M];
            *middle &= !(1 << (k % 64));
            if M > 1 && *middle == 0 {
                self.top &= !(1 << (k / 64));
            }
        }
    }

    #[inline(always)]
    fn has(&self, index: u32) -> bool {
        self.words[index as usize / 64 % W] >> (index % 64) & 1 != 0
    }

    #[inline(always)]
    fn first(&self) -> Option<u32> {
        let m = if M > 1 { self.top.trailing_zeros() as usize } else { 0 };
        if m == 64 || self.middle[m % M] == 0 {
            return None;
        }
        let k = m % M * 64 + self.middle[m % M].trailing_zeros() as usize;
        Some(k as u32 * 64 + self.words[k % W].trailing_zeros())
    }

    fn iter(&self) -> Both<'_, W, M> {
        self.both(self)
    }

    /// Returns an iterator over what is in both sets.
    fn both<'a>(&'a self, other: &'a Self) -> Both<'a, W, M> {
        let middle = if M > 1 { 0 } else { self.middle[0] & other.middle[0] };
        Both { left: self, right: other, top: self.top & other.top, middle, word: 0, m: 0, k: 0 }
    }
}

/// An iterator over what is in both of two sets. An iterator over one set has it twice.
struct Both<'a, const W: usize, const M: usize> {
    left: &'a ByHand<W, M>,
    right: &'a ByHand<W, M>,
    top: u64,
    middle: u64,
    word: u64,
    m: usize,
    k: usize,
}

impl<const W: usize, const M: usize> Iterator for Both<'_, W, M> {
    type Item = u32;

    #[inline(always)]
    fn next(&mut self) -> Option<u32> {
        while self.word == 0 {
            while M > 1 && self.middle == 0 {
                if self.top == 0 {
                    return None;
                }
                self.m = self.top.trailing_zeros() as usize % M;
                self.top &= self.top - 1;
                self.middle = self.left.middle[self.m] & self.right.middle[self.m];
            }
            if self.middle == 0 {
                return None;
            }
            self.k = (self.m * 64 + self.middle.trailing_zeros() as usize) % W;
            self.middle &= self.middle - 1;
            self.word = self.left.words[self.k] & self.right.words[self.k];
        }
        let item = self.k as u32 * 64 + self.word.trailing_zeros();
        self.word &= self.word - 1;
        Some(item)
    }
}

fn noted(sum: u64, item: u32) -> u64 {
    sum.rotate_left(1) ^ u64::from(item)
}

/// Gives pages back and takes as many again by a set of the free ones.
fn turns_by_hand<const W: usize, const M: usize>(map: &[u64; W], x: &[Batch], rounds: u32) -> u64 {
    let mut free = ByHand::<W, M>::new(&map.map(|word| !word));
    let mut sum = 0;
    for _ in 0..rounds {
        for batch in x {
            for page in batch {
                free.insert(*page);
            }
            for _ in batch {
                if let Some(page) = free.first() {
                    free.remove(page);
                    sum = noted(sum, page);
                }
            }
        }
    }
    sum ^ free.words.iter().map(|word| u64::from(word.count_zeros())).sum::<u64>()
}

/// Does the same as an allocator, which keeps a count and refuses what is not taken.
fn pages_by_hand<const W: usize, const M: usize>(map: &[u64; W], x: &[Batch], rounds: u32) -> u64 {
    let mut free = ByHand::<W, M>::new(&map.map(|word| !word));
    let mut taken = map.iter().map(|word| word.count_ones()).sum::<u32>();
    let mut sum = 0;
    for _ in 0..rounds {
        for batch in x {
            for page in batch {
                if *page < W as u32 * 64 && !free.has(*page) {
                    free.insert(*page);
                    taken -= 1;
                } else {
                    sum = !sum;
                }
            }
            for _ in batch {
                if let Some(page) = free.first() {
                    free.remove(page);
                    taken += 1;
                    sum = noted(sum, page);
                }
            }
        }
    }
    sum ^ u64::from(taken)
}

/// Gives pages back and takes as many again by a list of the free ones. The last of the list is
/// taken first.
fn turns_by_list<const W: usize>(map: &[u64; W], x: &[Batch], rounds: u32) -> u64 {
    let is_free = |page: &u32| map[*page as usize / 64] >> (page % 64) & 1 == 0;
    let mut free: Vec<u32> = (0..W as u32 * 64).rev().filter(is_free).collect();
    let mut sum = 0;
    for _ in 0..rounds {
        for batch in x {
            free.extend_from_slice(black_box(batch));
            for _ in batch {
                if let Some(page) = free.pop() {
                    sum = noted(sum, page);
                }
            }
        }
    }
    sum ^ (W * 64 - free.len()) as u64
}

fn walk_by_hand<const W: usize, const M: usize>(set: &[u64; W], rounds: u32) -> u64 {
    let set = ByHand::<W, M>::new(set);
    (0..rounds).fold(0, |sum, round| set.iter().fold(sum, |sum, item| noted(sum, item ^ round)))
}

fn walk_both_by_hand<const W: usize, const M: usize>(
    left: &[u64; W],
    right: &[u64; W],
    rounds: u32,
) -> u64 {
    let (left, right) = (ByHand::<W, M>::new(left), ByHand::<W, M>::new(right));
    let walk = |sum, round| left.both(&right).fold(sum, |sum, item| noted(sum, item ^ round));
    (0..rounds).fold(0, walk)
}

/// Returns the next number of a fixed sequence.
fn random(state: &mut u64) -> u64 {
    *state = state.wrapping_add(0x9E3779B97F4A7C15);
    let z = (*state ^ (*state >> 30)).wrapping_mul(0xBF58476D1CE4E5B9);
    let z = (z ^ (z >> 27)).wrapping_mul(0x94D049BB133111EB);
    z ^ (z >> 31)
}

/// Returns `many` distinct numbers below `end`.
fn draw(state: &mut u64, many: usize, end: usize) -> Vec<u32> {
    let mut drawn = Vec::new();
    while drawn.len() < many {
        let number = (random(state) % end as u64) as u32;
        if !drawn.contains(&number) {
            drawn.push(number);
        }
    }
    drawn
}

fn words_of<const W: usize>(numbers: impl IntoIterator<Item = u32>) -> [u64; W] {
    let mut words = [0; W];
    for number in numbers {
        words[number as usize / 64] |= 1 << (number % 64);
    }
    words
}

/// The name of a form, and a function that makes so many rounds of turns with it.
type Run<'a> = (&'static str, Box<dyn Fn(u32) -> u64 + 'a>);

fn sample(run: &dyn Fn(u32) -> u64, rounds: u32) -> f64 {
    let start = Instant::now();
    black_box(run(black_box(rounds)));
    start.elapsed().as_nanos() as f64
}

/// Returns how many rounds to measure, so that they take much longer than making the sets.
fn rounds_of(run: &dyn Fn(u32) -> u64) -> u32 {
    let least = |rounds| (0..5).map(|_| sample(run, rounds)).fold(f64::MAX, f64::min);
    let made = least(0);
    let one = (least(64) - made).max(640.0) / 64.0;
    (made.max(100_000.0) * 4.0 / one).clamp(4.0, 100_000.0) as u32
}

/// Times one cell, each form in turn. It prints what each form takes for one turn, without what it
/// takes to make its sets. A round has `turns` turns.
fn time(cell: &str, turns: usize, runs: &[Run]) {
    let answers: Vec<u64> = runs.iter().map(|(_, run)| run(3)).collect();
    for (at, answer) in answers.iter().enumerate() {
        // A list takes the pages in another order.
        let is_other = runs[at].0 == "list";
        assert!(is_other || *answer == answers[0], "{} of {cell} answers otherwise", runs[at].0);
    }
    let rounds: Vec<u32> = runs.iter().map(|(_, run)| rounds_of(run)).collect();
    let mut least = vec![(f64::MAX, f64::MAX); runs.len()];
    for _ in 0..15 {
        for (at, (_, run)) in runs.iter().enumerate() {
            let (made, all) = (sample(run, 0), sample(run, rounds[at]));
            least[at] = (least[at].0.min(made), least[at].1.min(all));
        }
    }
    for (at, (form, _)) in runs.iter().enumerate() {
        let one = (least[at].1 - least[at].0) / f64::from(rounds[at]) / turns as f64;
        println!("{cell}\t{form}\t{one:.3}");
    }
}

/// Times an allocator whose first pages are taken: `taken` of each thousand pages.
fn time_pages<const W: usize, const M: usize>(calls: &Calls<W>, taken: usize) {
    let state = &mut 2026;
    let end = (W * 64 * taken).div_ceil(1000);
    let map = words_of::<W>(0..end as u32);
    let batches: Vec<Batch> =
        (0..64).map(|_| draw(state, 16, end).try_into().unwrap()).collect();
    let cell = |call| format!("{call}\t{}\t{taken}", W * 64);
    let (map, x) = (&map, &batches[..]);
    let mut runs: Vec<Run> = Vec::new();
    for (form, call) in calls.turns {
        let run = move |rounds| unsafe { call(map, x.as_ptr(), x.len(), rounds) };
        runs.push((form, Box::new(run)));
    }
    runs.push(("hand", Box::new(move |rounds| turns_by_hand::<W, M>(map, x, rounds))));
    runs.push(("list", Box::new(move |rounds| turns_by_list::<W>(map, x, rounds))));
    time(&cell("turns"), 16 * 64, &runs);
    let mut runs: Vec<Run> = Vec::new();
    for (form, call) in calls.pages {
        let run = move |rounds| unsafe { call(map, x.as_ptr(), x.len(), rounds) };
        runs.push((form, Box::new(run)));
    }
    runs.push(("hand", Box::new(move |rounds| pages_by_hand::<W, M>(map, x, rounds))));
    time(&cell("pages"), 16 * 64, &runs);
}

/// Times walks over a set of `many` members, and over what two such sets have in common, which is a
/// tenth of each.
fn time_walks<const W: usize, const M: usize>(calls: &Calls<W>, many: usize, of: &str) {
    let state = &mut 2027;
    let drawn = draw(state, 2 * many, W * 64);
    let (one, other) = (&drawn[..many], &drawn[many..]);
    let left = words_of::<W>(one.iter().copied());
    let right = words_of::<W>(other.iter().chain(&one[..many.div_ceil(10)]).copied());
    let cell = |call| format!("{call}\t{}\t{of}", W * 64);
    let (left, right) = (&left, &right);
    let mut runs: Vec<Run> = Vec::new();
    for (form, call) in calls.walk {
        runs.push((form, Box::new(move |rounds| unsafe { call(left, rounds) })));
    }
    runs.push(("hand", Box::new(move |rounds| walk_by_hand::<W, M>(left, rounds))));
    time(&cell("walk"), 1, &runs);
    let mut runs: Vec<Run> = Vec::new();
    for (form, call) in calls.walk_both {
        runs.push((form, Box::new(move |rounds| unsafe { call(left, right, rounds) })));
    }
    runs.push(("hand", Box::new(move |rounds| walk_both_by_hand::<W, M>(left, right, rounds))));
    time(&cell("walk_both"), 1, &runs);
}

fn time_size<const W: usize, const M: usize>(calls: &Calls<W>) {
    for taken in [100, 500, 950, 999] {
        time_pages::<W, M>(calls, taken);
    }
    time_walks::<W, M>(calls, 10, "10");
    if W * 64 / 1000 > 10 {
        time_walks::<W, M>(calls, W * 64 / 1000, "thousandth");
    }
}

fn main() {
    time_size::<16, 1>(&tiers_calls::OF_1024);
    time_size::<64, 1>(&tiers_calls::OF_4096);
    time_size::<1024, 16>(&tiers_calls::OF_65536);
    time_size::<4096, 64>(&tiers_calls::OF_262144);
}
