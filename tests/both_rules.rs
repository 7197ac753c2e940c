//! A quote and look in one held against the two calls, in the model itself: it has the outputs of the quote and of the
//! look behind it, and leaves the quote's book, or, where either of them refuses, it refuses so and leaves all as it was.

use crate::call_lists::{outputs_of, parts_of_both, random_list};
use crate::call_model::{answer_line, output_line, Model, Plant};
use crate::small_lists::small_lists;

/// How many random lists are tried.
const LISTS: u64 = 1_000;

/// What a quote and look in one has to leave and to print.
pub struct Pairing {
    book: Model,
    print: String,
}

/// The number of a call's answer; none if no call was made.
fn number_of(print: &str) -> Option<u32> {
    print.strip_prefix("A ")?.split(' ').next()?.parse().ok()
}

impl Pairing {
    /// What a line has to leave and to print, by a quote and a look on copies of a model; none if it is no quote and look
    /// in one.
    pub fn of(model: &Model, line: &str) -> Option<Pairing> {
        let (n, columns) = parts_of_both(line)?;
        let (mut book, mut quote) = (model.clone(), String::new());
        book.play(&format!("quote{columns}"), &mut quote);
        let (mut copy, mut look) = (book.clone(), String::new());
        copy.lent.out = model.lent.cells;
        copy.play(&format!("look {n}"), &mut look);
        let mut print = String::new();
        if let Some(refusal) = [number_of(&quote)?, number_of(&look)?].into_iter().find(|&number| number != 0) {
            answer_line(refusal, 0, model.head, &mut print);
            return Some(Pairing { book: model.clone(), print });
        }
        let (changes, list) = (outputs_of(&quote).0, outputs_of(&look).0);
        answer_line(0, changes.len(), book.head, &mut print);
        output_line(&changes, &mut print);
        output_line(&list, &mut print);
        Some(Pairing { book, print })
    }

    /// Compares it with a model that has played the line, and with what that printed: whether it accepted, or a message if
    /// they differ.
    pub fn compare(&self, model: &Model, line: &str, print: &str) -> Result<bool, String> {
        if print != self.print {
            return Err(format!("'{line}' prints {print:?}, its quote and its look {:?}", self.print));
        }
        if !model.same_book(&self.book) {
            return Err(format!("'{line}' leaves another book than its quote, or than it found where it refuses"));
        }
        Ok(number_of(print) == Some(0))
    }
}

/// Follows the quotes and looks in one of a list; how many accepted, and how many refused.
fn follow(plant: Plant, list: &[String]) -> Result<[usize; 2], String> {
    let (mut model, mut calls) = (Model::new(plant), [0, 0]);
    for line in list {
        let (pairing, mut print) = (Pairing::of(&model, line), String::new());
        model.play(line, &mut print);
        if let Some(pairing) = pairing {
            calls[usize::from(!pairing.compare(&model, line, &print)?)] += 1;
        }
    }
    Ok(calls)
}

/// Tries every small list and some random ones; yes if nothing differs.
pub fn hold(plant: Plant) -> bool {
    let [mut accepted, mut refused] = [0, 0];
    for list in small_lists().into_iter().map(|list| list()).chain((0..LISTS).map(|i| random_list(1, i))) {
        match follow(plant, &list) {
            Ok([more, no]) => (accepted, refused) = (accepted + more, refused + no),
            Err(message) => {
                println!("random_calls: the rules differ: {message}");
                return false;
            }
        }
    }
    println!("random_calls: {accepted} quotes with a look in one were as both calls, {refused} refused were as none");
    accepted > 0 && refused > 0
}
