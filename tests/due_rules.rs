//! The model's pair held against the definitions by trying every tape of small settings: whoever applies its changes
//! holds the past list, and what is due joins that list after exactly the number of quotes said, and not before.

use crate::call_lists::outputs_of;
use crate::call_model::{Model, Plant};
use crate::definitions::{fields, Settings};

/// What a call writes; of a quote and look in one, the changes.
fn written(model: &mut Model, call: &str) -> Vec<u32> {
    let mut print = String::new();
    model.play(call, &mut print);
    outputs_of(&print).0
}

/// Applies change frames of the pair to the positions that a watcher holds.
fn apply(frames: &[u32], held: &mut Vec<u32>) {
    for frame in frames.chunks(5) {
        let position = frame[1..].iter().rev().fold(0, |sum, byte| sum << 8 | byte);
        match frame[0] {
            36 => held.retain(|&p| p != position),
            _ => held.push(position),
        }
    }
    held.sort_unstable();
}

/// A tape with a pair on it: its quotes, their number, and the past list after each count of them.
struct Followed {
    settings: Settings,
    quotes: Vec<u32>,
    last: usize,
    n1: usize,
    n2: usize,
    lists: Vec<Vec<u32>>,
}

impl Followed {
    /// A tape and the lists of a pair by their definition.
    fn new(settings: Settings, quotes: Vec<u32>, n1: usize, n2: usize) -> Followed {
        let last = quotes.len() / settings.d;
        let lists = (0..=last).map(|newest| settings.past_list(&quotes, newest, n1, n2)).collect();
        Followed { settings, quotes, last, n1, n2, lists }
    }

    /// Whether a position joins the pair's list after exactly so many quotes more than M, at least one, as far as the
    /// tape goes.
    fn joins(&self, newest: usize, position: u32, quotes: u32) -> bool {
        let on = |m: usize| self.lists[m].contains(&position);
        let until = newest + quotes as usize;
        quotes > 0 && !(newest..until.min(self.last + 1)).any(on) && (until > self.last || on(until))
    }

    /// Compares what is due after M quotes with the definition, and each number with the lists to come; how many rows.
    fn compare_due(&self, model: &mut Model, newest: usize) -> Result<usize, String> {
        let due = written(model, "due");
        let positions: Vec<u32> = due.iter().copied().step_by(2).collect();
        if positions != self.settings.due(&self.quotes, newest, self.n1, self.n2) {
            return Err(format!("after M {newest} other rows are due than {due:?}"));
        }
        match due.chunks(2).find(|row| !self.joins(newest, row[0], row[1])) {
            Some(row) => Err(format!("after M {newest} position {} does not join after {} quotes", row[0], row[1])),
            None => Ok(positions.len()),
        }
    }

    /// Plays the tape with the pair standing from its opening on, every second quote with a look in one; how many rows were
    /// due, or where it differs.
    fn play(&self, plant: Plant) -> Result<usize, String> {
        let Settings { d, memory, directions, .. } = self.settings;
        let (mut model, mut held, mut rows) = (Model::new(plant), Vec::new(), 0);
        let pair = format!("pair {} {}", self.n1, self.n2);
        let words = ["quote".to_string(), format!("both {memory}")].into_iter().cycle();
        let quotes = self.quotes.chunks(d).zip(words).map(|(quote, word)| word + &fields(quote));
        written(&mut model, &format!("open {d} {memory} {directions}"));
        for (newest, call) in std::iter::once(pair).chain(quotes).enumerate() {
            apply(&written(&mut model, &call), &mut held);
            if held != self.lists[newest] {
                return Err(format!("after M {newest} the watcher holds {held:?}"));
            }
            rows += self.compare_due(&mut model, newest)?;
        }
        Ok(rows)
    }
}

/// Follows every pair on every tape of so many quotes; how many tapes and due rows there were, or where one differs.
fn follow_all(settings: Settings, quotes: usize, plant: Plant) -> Result<(usize, usize), String> {
    let (mut tapes, mut rows) = (0, 0);
    for (n1, n2) in (2..=settings.memory).flat_map(|n1| (n1..=settings.memory).map(move |n2| (n1, n2))) {
        for tape in settings.tapes(quotes) {
            let followed = Followed::new(settings, tape, n1, n2);
            let played = followed.play(plant);
            rows += played.map_err(|message| format!("pair {n1} {n2}, {:?}: {message}", followed.quotes))?;
            tapes += 1;
        }
    }
    Ok((tapes, rows))
}

/// Tries every pair on every tape of small settings; yes if nothing differs.
pub fn hold(plant: Plant) -> bool {
    let one_column = Settings { d: 1, memory: 4, directions: 0, values: &[0, 1, u32::MAX] };
    let two_columns = Settings { d: 2, memory: 3, directions: 1, values: &[0, u32::MAX] };
    for (settings, quotes) in [(one_column, 7), (two_columns, 6)] {
        match follow_all(settings, quotes, plant) {
            Ok((tapes, rows)) => {
                println!("random_calls: the pair's changes and {rows} rows that were due are right on {tapes} tapes");
            }
            Err(message) => {
                println!("random_calls: the rules differ: {message}");
                return false;
            }
        }
    }
    true
}
