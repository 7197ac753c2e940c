//! The print of a tape read back, quote by quote from the split on.

use crate::late_tapes::{Role, Tape};

/// A watch: its desk and its n.
pub type Watch = (u32, usize);

/// A change of a list: a position joins it, or leaves it.
#[derive(Clone, Debug)]
pub struct Change {
    pub joins: bool,
    pub position: u32,
}

/// A change with its watch; no watch of one of the pair.
type Said = (Option<Watch>, Change);

/// What was printed from behind one quote, or from the split, up to the next quote and its changes.
#[derive(Clone, Default)]
pub struct Step {
    /// The lists and the past lists that were looked at, in their order.
    pub lists: Vec<(usize, Vec<u32>)>,
    pub pasts: Vec<((usize, usize), Vec<u32>)>,
    /// The watches that were set, each with its joins.
    pub set: Vec<(Watch, Vec<Change>)>,
    /// What stands when the next quote comes: the watches, and the pair.
    pub watches: Vec<Watch>,
    pub pair: Option<(usize, usize)>,
    /// The next quote's position and live rows, and its changes.
    pub quote: Option<(u32, usize)>,
    pub changes: Vec<(Watch, Change)>,
    pub pair_changes: Vec<Change>,
}

impl Step {
    /// The changes of a watch.
    pub fn changes_of(&self, desk: u32, n: usize) -> Vec<Change> {
        self.changes.iter().filter(|(watch, _)| *watch == (desk, n)).map(|(_, change)| change.clone()).collect()
    }
}

/// A line's word and its numbers.
fn parsed(line: &str) -> (&str, Vec<u32>) {
    let mut fields = line.split(' ');
    let word = fields.next().unwrap();
    (word, fields.map(|field| field.parse().expect("a number")).collect())
}

/// What a line of a change says.
fn change(word: &str, numbers: &[u32]) -> Said {
    let position = *numbers.last().expect("a position");
    let desk = if word.ends_with('2') { 2 } else { 1 };
    let watch = if numbers.len() == 2 { Some((desk, numbers[0] as usize)) } else { None };
    (watch, Change { joins: word.starts_with('+'), position })
}

/// The lines of a print in parts, one for each frame: its own line, and those of its changes.
fn parts(print: &str) -> Vec<Vec<&str>> {
    let mut parts: Vec<Vec<&str>> = Vec::new();
    for line in print.lines() {
        match parts.last_mut() {
            Some(part) if line.starts_with(['-', '+']) => part.push(line),
            _ => parts.push(vec![line]),
        }
    }
    parts
}

/// Takes in what a frame that is no look printed: a watch set or ended, the pair set or ended.
fn take_other(step: &mut Step, word: &str, numbers: &[u32], changes: Vec<Said>) {
    let desk = if word.ends_with('2') { 2 } else { 1 };
    match word {
        "W" | "W2" => {
            let watch = (desk, numbers[0] as usize);
            step.watches.push(watch);
            step.set.push((watch, changes.into_iter().map(|(_, change)| change).collect()));
        }
        "U" | "U2" => step.watches.retain(|&watch| watch != (desk, numbers[0] as usize)),
        "B" => step.pair = Some((numbers[0] as usize, numbers[1] as usize)),
        "E" => step.pair = None,
        _ => {}
    }
}

/// Takes in what a look printed.
fn take_look(step: &mut Step, word: &str, numbers: &[u32]) -> Result<(), String> {
    match word {
        "L" => step.lists.push((numbers[0] as usize, numbers[1..].to_vec())),
        "P" => step.pasts.push(((numbers[0] as usize, numbers[1] as usize), numbers[2..].to_vec())),
        _ => return Err(format!("a look was printed as {word}")),
    }
    Ok(())
}

/// Takes in a quote's line and its changes, and begins the next step.
fn take_quote(step: &mut Step, word: &str, numbers: &[u32], changes: Vec<Said>) -> Result<Step, String> {
    if word != "Q" {
        return Err(format!("a quote was printed as {word}"));
    }
    step.quote = Some((numbers[0], numbers[1] as usize));
    for (watch, change) in changes {
        match watch {
            Some(watch) => step.changes.push((watch, change)),
            None => step.pair_changes.push(change),
        }
    }
    let next = Step { watches: step.watches.clone(), pair: step.pair, ..Step::default() };
    Ok(std::mem::replace(step, next))
}

/// The steps of a tape's print from the split on.
pub fn steps(tape: &Tape, print: &str) -> Result<Vec<Step>, String> {
    let parts = parts(print);
    if parts.len() != tape.roles.len() {
        return Err(format!("{} frames printed {} lines of their own", tape.roles.len(), parts.len()));
    }
    let (mut done, mut step) = (Vec::new(), Step::default());
    for (i, (part, role)) in parts.iter().zip(&tape.roles).enumerate() {
        let (word, numbers) = parsed(part[0]);
        let changes = part[1..].iter().map(|line| parsed(line)).map(|(word, numbers)| change(word, &numbers)).collect();
        match role {
            Role::Look => take_look(&mut step, word, &numbers)?,
            Role::Quote => done.push(take_quote(&mut step, word, &numbers, changes)?),
            Role::Opening | Role::Other => take_other(&mut step, word, &numbers, changes),
        }
        if i + 1 == tape.split {
            step.set.clear();
        }
    }
    done.push(step);
    Ok(done)
}
