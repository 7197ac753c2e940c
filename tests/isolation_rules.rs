//! Two lists of calls that agree in what concerns one desk and differ in all else, held against each other in the model:
//! where the same of that desk's calls got 9, its answers and its change frames are the same. To a desk an accepted quote
//! and look in one is its quote, and a refused one is none.

use crate::call_lists::{both_of, outputs_of, parts_of_both, List};
use crate::call_model::{Model, Plant, OUTPUT};
use crate::random::Random;

/// How many pairs of lists are tried.
const PAIRS: u64 = 2_000;

/// A call with the length of its output.
#[derive(Clone, PartialEq)]
struct Call {
    line: String,
    out: usize,
}

/// What a desk sees of a call that concerns it: the number of its answer, and those of its change frames that are the
/// desk's.
struct View {
    call: Call,
    answer: String,
    frames: Vec<Vec<u32>>,
}

/// What stands behind the words of a desk's calls.
fn sign(desk: u32) -> &'static str {
    ["", "2"][desk as usize - 1]
}

/// Whether a line concerns a desk: openings, quotes, its own watches and ends; the pair belongs to desk one. A quote and
/// look in one is looked at by its answer.
fn concerns(desk: u32, line: &str) -> bool {
    match line.split(' ').next().unwrap_or("") {
        "open" | "quote" => true,
        "watch" | "end" | "pair" | "unpair" => desk == 1,
        "watch2" | "end2" => desk == 2,
        _ => false,
    }
}

/// Calls that concern a desk, with an opening among the first of them.
fn concerning(list: &mut List, desk: u32) -> Vec<Call> {
    let open = format!("open {} {} {}", list.d, list.memory, list.directions);
    let opening = list.below(3);
    let count = 20 + list.below(40);
    let call = |i: u64| {
        let line = match list.below(20) {
            _ if i == opening => open.clone(),
            0 if list.once_in(4) => open.clone(),
            1 if list.once_in(2) => "open 1 0 0".into(),
            2..=8 => format!("watch{} {}", sign(desk), list.window_size()),
            9 | 10 => format!("end{} {}", sign(desk), list.window_size()),
            11 if desk == 1 => "unpair".into(),
            12 if desk == 1 => list.pair(),
            _ => list.quote(),
        };
        let out = if list.once_in(15) { [0, OUTPUT - 1][list.below(2) as usize] } else { OUTPUT };
        Call { line, out }
    };
    (0..count).map(call).collect()
}

/// The line of a call that does not concern a desk; that of a quote and look in one is refused.
fn other_call(list: &mut List, desk: u32) -> String {
    let other = sign(3 - desk);
    match list.below(14) {
        0 => format!("look {}", list.window_size()),
        1 => list.past(),
        2 => "due".into(),
        3 => list.quote().replace("quote", "preview"),
        4 => "audit".into(),
        12.. => {
            let n = [0, list.memory + 1][list.below(2) as usize];
            both_of(n, &list.quote())
        }
        5 | 6 if desk == 2 => list.pair(),
        5..=8 => format!("end{other} {}", list.window_size()),
        _ => format!("watch{other} {}", list.window_size()),
    }
}

/// Has the other desk take or give back watches until a call gets 9, or does not.
fn mend(list: &mut List, desk: u32, call: &Call, nine: bool) {
    let word = if nine { "watch" } else { "end" };
    for n in 1..=list.memory {
        if list.trial(&call.line, call.out).starts_with("A 9 ") == nine {
            return;
        }
        list.say(format!("{word}{} {n}", sign(3 - desk)));
    }
}

/// Says a quote with a look in one, at any n and with cells about as many as it asks for; whether it accepted.
fn say_both(list: &mut List, quote: &str) -> bool {
    let call = both_of(list.window_size(), quote);
    let cells = (list.list_length(&call) + list.below(3) as usize).max(1) - 1;
    list.say(format!("lend cells {cells}"));
    let before = list.newest();
    list.say(call);
    list.say(format!("lend cells {OUTPUT}"));
    list.newest() > before
}

/// Says the calls that concern a desk on any tables, others before each of them, or none at all; a quote mostly with a
/// look in one, and singly where that refuses. Says which got 9: those that are known to, if they are known.
fn say_all(list: &mut List, desk: u32, calls: &[Call], nines: Option<&[bool]>) -> Vec<bool> {
    let (mut got, others) = (Vec::new(), 1 + list.below(6));
    list.litter();
    for (i, call) in calls.iter().enumerate() {
        for _ in 0..list.below(others) {
            let other = other_call(list, desk);
            list.say(other);
        }
        if let Some(nines) = nines {
            mend(list, desk, call, nines[i]);
        }
        got.push(list.trial(&call.line, call.out).starts_with("A 9 "));
        list.say(format!("lend out {}", call.out));
        let both = call.line.starts_with("quote") && !list.once_in(3);
        if !(both && say_both(list, &call.line)) {
            list.say(call.line.clone());
        }
        list.say(format!("lend out {OUTPUT}"));
    }
    got
}

/// Two lists that agree in what concerns a desk; in the second the other desk brings about the same 9.
pub fn isolated_lists(seed: u64, index: u64) -> (u32, [Vec<String>; 2]) {
    let desk = 1 + (index % 2) as u32;
    let new = |run: u64| List::new(Random::new(seed ^ 0x6465_736b, 3 * index + run));
    let (mut script, mut one, mut two) = (new(0), new(1), new(2));
    script.memory = 5 + script.below(8) as u32;
    let calls = concerning(&mut script, desk);
    for list in [&mut one, &mut two] {
        (list.d, list.memory, list.directions, list.values) =
            (script.d, script.memory, script.directions, script.values);
    }
    let nines = say_all(&mut one, desk, &calls, None);
    say_all(&mut two, desk, &calls, Some(&nines));
    (desk, [one.lines, two.lines])
}

/// The change frames of an output that are a desk's.
fn frames_of(desk: u32, mut rest: &[u32]) -> Vec<Vec<u32>> {
    let mut frames = Vec::new();
    while let Some(&kind) = rest.first() {
        let (frame, behind) = rest.split_at(if kind < 36 { 7 } else { 5 });
        if desk == if kind == 34 || kind == 35 { 2 } else { 1 } {
            frames.push(frame.to_vec());
        }
        rest = behind;
    }
    frames
}

/// What a call is to the desks that saw its print: an accepted quote and look in one is its quote, a refused one nothing.
fn seen_as(line: &str, print: &str) -> Option<String> {
    match parts_of_both(line) {
        Some((_, columns)) => print.starts_with("A 0 ").then(|| format!("quote{columns}")),
        None => Some(line.into()),
    }
}

/// What a desk sees of a list, played by a model, and how many quotes in it came with a look in one.
fn views(plant: Plant, desk: u32, list: &[String]) -> (Vec<View>, usize) {
    let (mut model, mut views, mut both) = (Model::new(plant), Vec::new(), 0);
    for played in list {
        let (mut print, out) = (String::new(), model.lent.out);
        model.play(played, &mut print);
        if let Some(line) = seen_as(played, &print).filter(|line| concerns(desk, line)) {
            both += usize::from(line != *played);
            let answer = print.split(' ').nth(1).expect("an answer").to_string();
            let frames = frames_of(desk, &outputs_of(&print).0);
            views.push(View { call: Call { line, out }, answer, frames });
        }
    }
    (views, both)
}

/// How many pairs of lists were compared, how many calls in them got 9, how many quotes came with a look in one, in either
/// list, and how many change frames there were.
#[derive(Default)]
struct Compared {
    pairs: usize,
    nines: usize,
    both: usize,
    frames: usize,
}

/// Compares what a desk sees of two lists, if the same of its calls got 9; a message if it differs.
fn compare(plant: Plant, index: u64, compared: &mut Compared) -> Result<(), String> {
    let (desk, lists) = isolated_lists(1, index);
    let [(one, both), (two, more)] = lists.map(|list| views(plant, desk, &list));
    let alike = one.iter().zip(&two).all(|(a, b)| a.call == b.call);
    if !(alike && one.len() == two.len()) {
        return Err(format!("lists {index}: not the same calls concern desk {desk}"));
    }
    if one.iter().zip(&two).any(|(a, b)| (a.answer == "9") != (b.answer == "9")) {
        return Ok(());
    }
    if let Some((a, b)) = one.iter().zip(&two).find(|(a, b)| (&a.answer, &a.frames) != (&b.answer, &b.frames)) {
        let (line, answers) = (&a.call.line, format!("{} and {}", a.answer, b.answer));
        return Err(format!("lists {index}: desk {desk} sees otherwise of '{line}': answers {answers}"));
    }
    compared.pairs += 1;
    compared.nines += one.iter().filter(|view| view.answer == "9").count();
    compared.both += both + more;
    compared.frames += one.iter().map(|view| view.frames.len()).sum::<usize>();
    Ok(())
}

/// Tries pairs of lists for each desk; yes if nothing differs and most could be compared.
pub fn hold(plant: Plant) -> bool {
    let mut compared = Compared::default();
    for index in 0..PAIRS {
        if let Err(message) = compare(plant, index, &mut compared) {
            println!("random_calls: the rules differ: {message}");
            return false;
        }
    }
    let Compared { pairs, nines, both, frames } = compared;
    println!("random_calls: a desk saw the same of both lists of {pairs} pairs, {nines} times 9 and {frames} changes,");
    println!("random_calls: where {both} quotes came with a look in one");
    pairs as u64 > PAIRS / 2 && nines > 0 && both > 0 && frames > 0
}
