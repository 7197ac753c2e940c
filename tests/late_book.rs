//! Plays pairs of tapes through the tape printer: one on since the morning, and one switched on late that has the same quotes from there
//! on. Compares their prints: lists, past lists, changes and row counts are the same, positions less the quotes missed.
//!
//! usage: late_book [--plant NAME] PRINTER [SEED [PAIRS]]
//!                                       compare the two prints, or compare them by a wrong reading of what they have in common

mod frames;
mod late_prints;
mod late_tapes;
mod piped;
mod random;

use late_prints::{steps, Change, Step};
use late_tapes::{Pair, Tape};
use std::time::Instant;

/// A wrong reading of what the two prints have in common.
#[derive(Clone, Copy, PartialEq)]
enum Plant {
    Nothing,
    /// Positions are not shifted.
    Unshifted,
    /// The list of n is the same once n - 1 quotes are in.
    ListEarly,
    /// The past list of n1 and n2 is the same once n2 - 1 quotes are in.
    PastEarly,
    /// The changes of a watch of n are the same from quote n on.
    ChangesEarly,
    /// The changes of a pair are the same from quote n2 on.
    PairEarly,
    /// The counts of live rows are the same once N - 1 quotes are in.
    RowsEarly,
    /// The late book may have other directions.
    OtherDirections,
}

/// The planted readings by name.
const PLANTS: [(&str, Plant); 7] = [
    ("unshifted", Plant::Unshifted),
    ("list-early", Plant::ListEarly),
    ("past-early", Plant::PastEarly),
    ("changes-early", Plant::ChangesEarly),
    ("pair-early", Plant::PairEarly),
    ("rows-early", Plant::RowsEarly),
    ("other-directions", Plant::OtherDirections),
];

/// What was compared, by sort.
const SORTS: [&str; 8] = [
    "lists",
    "past lists",
    "changes of a watch",
    "changes across desks",
    "changes of pairs",
    "joins of a watch set",
    "positions of quotes",
    "counts of rows",
];

/// How often each sort was compared with something in it.
#[derive(Default)]
struct Tally([usize; SORTS.len()]);

/// Two prints side by side: how many quotes were missed, the memory, and the reading by which they are compared.
struct Comparison<'a> {
    missed: u32,
    memory: usize,
    plant: Plant,
    tally: &'a mut Tally,
}

impl Comparison<'_> {
    /// How many quotes are asked for, by the reading.
    fn asked(&self, quotes: usize, early: Plant) -> usize {
        if self.plant == early {
            quotes - 1
        } else {
            quotes
        }
    }

    /// Whether positions are the late ones, shifted; counted where there are any.
    fn shifted(&mut self, sort: usize, morning: &[u32], late: &[u32]) -> bool {
        self.tally.0[sort] += usize::from(!late.is_empty());
        let by = if self.plant == Plant::Unshifted { 0 } else { self.missed };
        morning.iter().copied().eq(late.iter().map(|position| position + by))
    }

    /// The same of changes.
    fn changed(&mut self, sort: usize, morning: &[Change], late: &[Change]) -> bool {
        let positions = |changes: &[Change]| changes.iter().map(|change| change.position).collect::<Vec<_>>();
        let joins = |changes: &[Change]| changes.iter().map(|change| change.joins).collect::<Vec<_>>();
        joins(morning) == joins(late) && self.shifted(sort, &positions(morning), &positions(late))
    }

    /// Compares what was looked at after k quotes.
    fn compare_looks(&mut self, k: usize, morning: &Step, late: &Step) -> Result<(), String> {
        for ((n, now), (_, then)) in morning.lists.iter().zip(&late.lists) {
            if self.asked(*n, Plant::ListEarly) <= k && !self.shifted(0, now, then) {
                return Err(format!("the list of {n} after {k} quotes: {now:?} and {then:?}"));
            }
        }
        for (((n1, n2), now), (_, then)) in morning.pasts.iter().zip(&late.pasts) {
            if self.asked(*n2, Plant::PastEarly) <= k && !self.shifted(1, now, then) {
                return Err(format!("the past list of {n1} and {n2} after {k} quotes: {now:?} and {then:?}"));
            }
        }
        Ok(())
    }

    /// Compares the joins of watches of the same n that were set on both after k quotes.
    fn compare_joins(&mut self, k: usize, morning: &Step, late: &Step) -> Result<(), String> {
        for ((_, n), now) in &morning.set {
            for (_, then) in late.set.iter().filter(|((_, other), _)| other == n && *n <= k) {
                if !self.changed(5, now, then) {
                    return Err(format!("the joins of a watch of {n} set after {k} quotes: {now:?} and {then:?}"));
                }
            }
        }
        Ok(())
    }

    /// Compares the changes that the next quote brings the watches that stand on both, and the pair.
    fn compare_changes(&mut self, k: usize, morning: &Step, late: &Step) -> Result<(), String> {
        for &(desk, n) in &morning.watches {
            for &(other, _) in late.watches.iter().filter(|(_, size)| *size == n) {
                let (now, then) = (morning.changes_of(desk, n), late.changes_of(other, n));
                let sort = if desk == other { 2 } else { 3 };
                if self.asked(n, Plant::ChangesEarly) <= k && !self.changed(sort, &now, &then) {
                    return Err(format!("the changes of {n} with quote {}: {now:?} and {then:?}", k + 1));
                }
            }
        }
        if let (Some(pair), true) = (morning.pair, morning.pair == late.pair) {
            let (now, then) = (&morning.pair_changes, &late.pair_changes);
            if self.asked(pair.1, Plant::PairEarly) <= k && !self.changed(4, now, then) {
                return Err(format!("the changes of the pair {pair:?} with quote {}: {now:?} and {then:?}", k + 1));
            }
        }
        Ok(())
    }

    /// Compares the next quote's own line.
    fn compare_quote(&mut self, k: usize, morning: &Step, late: &Step) -> Result<(), String> {
        let (Some(now), Some(then)) = (morning.quote, late.quote) else {
            return Ok(());
        };
        let full = self.asked(self.memory, Plant::RowsEarly) <= k + 1;
        self.tally.0[7] += usize::from(full);
        if self.shifted(6, &[now.0], &[then.0]) && (!full || now.1 == then.1) {
            Ok(())
        } else {
            Err(format!("position and live rows of quote {}: {now:?} and {then:?}", k + 1))
        }
    }

    /// Compares two prints, step by step.
    fn compare(&mut self, morning: &[Step], late: &[Step]) -> Result<(), String> {
        if morning.len() != late.len() {
            return Err(format!("{} quotes since and {}", morning.len(), late.len()));
        }
        for (k, (now, then)) in morning.iter().zip(late).enumerate() {
            self.compare_looks(k, now, then)?;
            self.compare_joins(k, now, then)?;
            self.compare_quote(k, now, then)?;
            self.compare_changes(k, now, then)?;
        }
        Ok(())
    }
}

/// The steps of a tape's print, from the split on.
fn played(printer: &str, tape: &Tape) -> Result<Vec<Step>, String> {
    let (print, well) = piped::printed(printer, &tape.bytes);
    if well {
        steps(tape, &String::from_utf8_lossy(&print))
    } else {
        Err("the printer did not end well".to_string())
    }
}

/// Plays a pair of tapes and compares their prints.
fn compare_pair(printer: &str, pair: &Pair, plant: Plant, tally: &mut Tally) -> Result<(), String> {
    let (morning, late) = (played(printer, &pair.morning)?, played(printer, &pair.late)?);
    Comparison { missed: pair.missed, memory: pair.memory, plant, tally }.compare(&morning, &late)
}

/// Compares pairs of a seed up to the first that differs, and says how often each sort was compared; yes if none differs and
/// every sort came.
fn compare_all(printer: &str, plant: Plant, seed: u64, pairs: u64) -> bool {
    let mut tally = Tally::default();
    for index in 0..pairs {
        let pair = late_tapes::pair(seed, index, plant == Plant::OtherDirections);
        if let Err(message) = compare_pair(printer, &pair, plant, &mut tally) {
            let missed = pair.missed;
            eprintln!("late_book: pair {index} of seed {seed}, {missed} quotes missed: the books differ: {message}");
            return false;
        }
    }
    let said: Vec<_> = SORTS.iter().zip(tally.0).map(|(sort, times)| format!("{times} {sort}")).collect();
    println!("late_book: {pairs} pairs of tapes shown alike: {}", said.join(", "));
    tally.0.iter().all(|&times| times > 0)
}

fn main() {
    let mut arguments = std::env::args().skip(1).peekable();
    let name = arguments.next_if_eq("--plant").map(|_| arguments.next().expect("the name of a planted reading"));
    let printer = arguments.next().expect("usage: late_book [--plant NAME] PRINTER [SEED [PAIRS]]");
    let seed: u64 = arguments.next().map_or(1, |s| s.parse().expect("a seed"));
    let pairs: u64 = arguments.next().map_or(1_000, |s| s.parse().expect("a number of pairs"));
    let named = |name: &String| PLANTS.iter().find(|plant| plant.0 == name).expect("a planted reading").1;
    let plant = name.as_ref().map_or(Plant::Nothing, named);
    let start = Instant::now();
    let right = compare_all(&printer, plant, seed, pairs);
    println!("late_book: {:.1} s", start.elapsed().as_secs_f64());
    if !right {
        std::process::exit(1);
    }
}
