//! Previews held against quotes, in the model itself: a preview changes nothing but its output, and the same quote
//! directly behind it has its answer, its count and its bytes, and leaves the row counts that it said.

use crate::call_lists::random_list;
use crate::call_model::{Model, Plant};
use crate::small_lists::small_lists;

/// How many random lists are tried.
const LISTS: u64 = 1_000;

/// What a preview or a quote printed: its answer and count, the line of its output, and the row counts after the quote.
#[derive(PartialEq)]
struct Effect {
    answer: String,
    output: String,
    counts: String,
}

impl Effect {
    /// The effect in a print; none if no call was made. A preview says the counts, a quote has them in its head.
    fn of(print: &str) -> Option<Effect> {
        let words: Vec<&str> = print.lines().next()?.strip_prefix("A ")?.split(' ').collect();
        let said = |letter: &str| print.lines().find(|line| line.starts_with(letter)).map(String::from);
        let counts = said("N ").unwrap_or(format!("N {} {}", words[6], words[7]));
        Some(Effect { answer: words[..2].join(" "), output: said("X ").unwrap_or_default(), counts })
    }
}

/// Follows the previews of a list: the columns of the last one and its effect, as long as nothing but `show` came since.
#[derive(Default)]
pub struct Follower {
    last: Option<(String, Effect)>,
}

impl Follower {
    /// Has a model play a line: whether it was a quote directly behind its own preview, or a message if a preview
    /// changed something, or a quote differed from its preview.
    pub fn play(&mut self, model: &mut Model, line: &str, print: &mut String) -> Result<bool, String> {
        let (start, before) = (print.len(), line.starts_with("preview").then(|| model.clone()));
        model.play(line, print);
        if before.is_some_and(|before| !model.same_book(&before)) {
            return Err(format!("'{line}' changed head, tables or records"));
        }
        if line == "show" {
            return Ok(false);
        }
        let (last, effect) = (self.last.take(), Effect::of(&print[start..]));
        if let Some(columns) = line.strip_prefix("preview") {
            self.last = effect.map(|effect| (columns.to_string(), effect));
            return Ok(false);
        }
        let previewed =
            last.filter(|(columns, _)| line.strip_prefix("quote") == Some(columns)).map(|(_, effect)| effect);
        if previewed.is_some() && effect != previewed {
            return Err(format!("'{line}' differs from its preview"));
        }
        Ok(previewed.is_some())
    }
}

/// Follows the previews of a list; how many quotes stood directly behind theirs.
fn follow(plant: Plant, list: &[String]) -> Result<usize, String> {
    let (mut model, mut follower, mut quotes) = (Model::new(plant), Follower::default(), 0);
    for line in list {
        quotes += usize::from(follower.play(&mut model, line, &mut String::new())?);
    }
    Ok(quotes)
}

/// Tries every small list and some random ones; yes if nothing differs.
pub fn hold(plant: Plant) -> bool {
    let mut quotes = 0;
    for list in small_lists().into_iter().map(|list| list()).chain((0..LISTS).map(|i| random_list(1, i))) {
        match follow(plant, &list) {
            Ok(more) => quotes += more,
            Err(message) => {
                println!("random_calls: the rules differ: {message}");
                return false;
            }
        }
    }
    println!("random_calls: previews changed nothing, and {quotes} quotes directly behind theirs had the same effect");
    quotes > 0
}
