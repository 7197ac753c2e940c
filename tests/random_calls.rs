//! Plays random lists of calls through the book player and through a plain model of the calls on any tables, and
//! compares what they print, line by line; in the model each preview is held against the quote behind it, and each quote
//! and look in one against the two calls.
//!
//! usage: random_calls [--plant NAME] PLAYER [SEED [LISTS]]
//!            compare the player with the model, or with a model that has a bug planted, on random lists
//!        random_calls [--plant NAME] --rules
//!            compare the model's audit, lists and due rows with every tape of small settings, its previews with its
//!            quotes, a quote and look in one with the two, and what one desk sees of lists that differ in all that
//!            does not concern it
//!        random_calls --play < CALLS
//!            play a list by the model alone

mod audit_rules;
mod both_rules;
mod call_lists;
mod call_model;
mod definitions;
mod due_rules;
mod isolation_rules;
mod piped;
mod preview_rules;
mod random;
mod small_lists;

use both_rules::Pairing;
use call_model::{Model, Plant, CHANGE_BYTES};
use preview_rules::Follower;
use std::collections::BTreeMap;
use std::io::Read;
use std::sync::atomic::{AtomicBool, AtomicUsize, Ordering};
use std::time::Instant;

const THREADS: usize = 2;
/// How many lists one process of the player gets.
const BATCH: usize = 100;
/// How many lines before a difference are shown; the whole list is saved.
const SHOWN: usize = 20;
/// The planted bugs by name.
const PLANTS: [(&str, Plant); 33] = [
    ("renamed", Plant::Renamed),
    ("torn-first", Plant::TornFirst),
    ("past-memory", Plant::PastMemory),
    ("early", Plant::Early),
    ("live-lower", Plant::LiveLower),
    ("overwritten", Plant::Overwritten),
    ("retired-lower", Plant::RetiredLower),
    ("fourteen-first", Plant::FourteenFirst),
    ("live-zeros", Plant::LiveZeros),
    ("upper-free", Plant::UpperFree),
    ("pair-first", Plant::PairFirst),
    ("nine-first", Plant::NineFirst),
    ("pair-end", Plant::PairEnd),
    ("due-equal", Plant::DueEqual),
    ("due-cells", Plant::DueCells),
    ("blind-look", Plant::BlindLook),
    ("audit-pair", Plant::AuditPair),
    ("preview-settles", Plant::PreviewSettles),
    ("preview-held", Plant::PreviewHeld),
    ("preview-head", Plant::PreviewHead),
    ("equals-stay", Plant::EqualsStay),
    ("earlier-stands", Plant::EarlierStands),
    ("nine-at-eight", Plant::NineAtEight),
    ("shares-free", Plant::SharesFree),
    ("thirteen-fits", Plant::ThirteenFits),
    ("desk-two-first", Plant::DeskTwoFirst),
    ("watch2-by-one", Plant::Watch2ByOne),
    ("desk-left", Plant::DeskLeft),
    ("five-before-thirteen", Plant::FiveBeforeThirteen),
    ("both-leaves-quote", Plant::BothLeavesQuote),
    ("both-cells-on-refusal", Plant::BothCellsOnRefusal),
    ("look-before", Plant::LookBefore),
    ("both-counts", Plant::BothCounts),
];
/// What 13 is called where it is said of the cells of a quote and look in one.
const OF_CELLS: &str = "13 of the cells";
/// The answers that each call can give and that have to come; a quote directly behind its preview is counted by itself.
const ANSWERS: [(&str, &[&str]); 15] = [
    ("open", &["0", "3", "11"]),
    ("quote", &["0", "3", "11", "12", "4", "6", "13"]),
    ("preview", &["0", "3", "11", "12", "4", "6", "13"]),
    ("previewed", &["0", "3", "11", "12", "4", "6", "13"]),
    ("both", &["0", "3", "11", "12", "4", "6", "13", "5", OF_CELLS]),
    ("look", &["0", "3", "11", "12", "5", "13"]),
    ("past", &["0", "3", "11", "12", "5", "14", "13"]),
    ("watch", &["0", "3", "11", "12", "5", "8", "9", "13"]),
    ("end", &["0", "3", "11", "12", "5", "10"]),
    ("watch2", &["0", "3", "11", "12", "5", "8", "9", "13"]),
    ("end2", &["0", "3", "11", "12", "5", "10"]),
    ("pair", &["0", "3", "11", "12", "5", "14", "9", "13"]),
    ("unpair", &["0", "3", "11", "12", "10"]),
    ("due", &["0", "3", "11", "12", "13"]),
    ("audit", &["yes", "no", "3", "11"]),
];

/// What is compared: the player and the model with a planted bug or none; the label names failing lists, with the seed.
struct Comparison {
    player: String,
    plant: Plant,
    label: String,
}

/// How many lists were played alike and how many not, and how often each call gave each answer.
#[derive(Default)]
struct Tally {
    alike: usize,
    unlike: usize,
    answers: BTreeMap<String, usize>,
}

impl Tally {
    /// Counts what a line printed, of which so much output was lent: the call's word with the number or the verdict.
    fn count(&mut self, line: &str, previewed: bool, out: usize, print: &str) {
        if let Some(("A" | "V", rest)) = print.split_once(' ') {
            let word = if previewed { "previewed" } else { line.split(' ').next().unwrap() };
            let answer = match rest.split([' ', '\n']).next().unwrap() {
                "13" if word == "both" && out >= CHANGE_BYTES => OF_CELLS,
                answer => answer,
            };
            *self.answers.entry(format!("{word} {answer}")).or_default() += 1;
        }
    }

    /// Adds another tally.
    fn add(&mut self, other: Tally) {
        self.alike += other.alike;
        self.unlike += other.unlike;
        for (answer, times) in other.answers {
            *self.answers.entry(answer).or_default() += times;
        }
    }

    /// Says how often each answer came, and whether every one did.
    fn covers(&self) -> bool {
        let mut covered = true;
        for (word, answers) in ANSWERS {
            let times = |answer: &&str| self.answers.get(&format!("{word} {answer}")).copied().unwrap_or(0);
            let said: Vec<_> = answers.iter().map(|answer| format!("{answer} {} times", times(answer))).collect();
            println!("random_calls: {word}: {}", said.join(", "));
            covered &= answers.iter().all(|answer| times(answer) > 0);
        }
        if !covered {
            eprintln!("random_calls: an answer never came: more lists are needed");
        }
        covered
    }
}

impl Comparison {
    /// What the model prints for some lists, played one behind the other, and whether its previews are right, and its
    /// quotes and looks in one.
    fn model_print(&self, lists: &[Vec<String>], tally: &mut Tally) -> (String, bool) {
        let (mut model, mut follower) = (Model::new(self.plant), Follower::default());
        let (mut print, mut right) = (String::new(), true);
        for line in lists.iter().flatten() {
            let (before, pairing) = (print.len(), Pairing::of(&model, line));
            let previewed = follower.play(&mut model, line, &mut print);
            let paired = pairing.map_or(Ok(true), |pairing| pairing.compare(&model, line, &print[before..]));
            if let (true, Some(message)) = (right, previewed.as_ref().err().or(paired.as_ref().err())) {
                eprintln!("random_calls: {}: the rules differ: {message}", self.label);
                right = false;
            }
            tally.count(line, previewed == Ok(true), model.lent.out, &print[before..]);
        }
        (print, right)
    }

    /// Compares player and model on some lists, one behind the other in one process; the first of them has an index.
    fn compare(&self, name: &str, first: usize, lists: &[Vec<String>], tally: &mut Tally) -> bool {
        let (want, right) = self.model_print(lists, tally);
        let input: String = lists.iter().flatten().flat_map(|line| [line, "\n"]).collect();
        let (got, well) = piped::printed(&self.player, input.as_bytes());
        let alike = got == want.as_bytes() && well;
        if !alike {
            self.report(name, first, lists, &String::from_utf8_lossy(&got));
        }
        if alike && right {
            tally.alike += lists.len();
        } else {
            tally.unlike += 1;
        }
        alike && right
    }

    /// Says at which line of which list player and model differ, saves the list, and shows the calls that lead there.
    fn report(&self, name: &str, first: usize, lists: &[Vec<String>], got: &str) {
        let (mut model, mut rest) = (Model::new(self.plant), got);
        for (i, list) in lists.iter().enumerate() {
            for (j, line) in list.iter().enumerate() {
                let mut print = String::new();
                model.play(line, &mut print);
                if let Some(behind) = rest.strip_prefix(&print[..]) {
                    rest = behind;
                    continue;
                }
                let name = format!("{}_{name}_{}", self.label, first + i);
                return show_difference(&name, list, j, &print, rest);
            }
        }
        eprintln!("random_calls: {}: the player prints more than the model, or ended badly: {rest:.200}", self.label);
    }

    /// Compares player and model on the lists of a run, on all threads, up to the first difference.
    fn run(&self, name: &str, count: usize, list: impl Fn(usize) -> Vec<String> + Sync) -> Tally {
        let (next, stop) = (AtomicUsize::new(0), AtomicBool::new(false));
        let work = || {
            let mut tally = Tally::default();
            while !stop.load(Ordering::Relaxed) {
                let first = next.fetch_add(BATCH, Ordering::Relaxed);
                if first >= count {
                    break;
                }
                let lists: Vec<_> = (first..count.min(first + BATCH)).map(&list).collect();
                if !self.compare(name, first, &lists, &mut tally) {
                    stop.store(true, Ordering::Relaxed);
                }
            }
            tally
        };
        let mut total = Tally::default();
        std::thread::scope(|scope| {
            let workers: Vec<_> = (0..THREADS).map(|_| scope.spawn(work)).collect();
            for worker in workers {
                total.add(worker.join().expect("a thread of the comparison ends"));
            }
        });
        println!("random_calls: {}: {name} lists: {} played alike", self.label, total.alike);
        total
    }
}

/// Shows where a list differs, with the lines that lead there, and saves the list up to that line.
fn show_difference(name: &str, list: &[String], at: usize, want: &str, got: &str) {
    let path = format!("build/failing_{name}.txt");
    let calls = list[..=at].join("\n") + "\n";
    std::fs::create_dir_all("build").and_then(|()| std::fs::write(&path, calls)).expect("the failing list is saved");
    eprintln!("random_calls: {name}: the answers differ at line {} of the list, saved as {path}", at + 1);
    for line in &list[(at + 1).saturating_sub(SHOWN)..=at] {
        eprintln!("    {line}");
    }
    let differs = want.lines().zip(got.lines()).take_while(|(a, b)| a == b).count();
    eprintln!("  model:  {:?}", want.lines().nth(differs));
    eprintln!("  player: {:?}", got.lines().nth(differs));
}

/// Compares player and model on all sorts of lists; yes if nothing differs and every answer came.
fn compare_all(comparison: &Comparison, seed: u64, lists: usize) -> bool {
    let small = small_lists::small_lists();
    let mut total = comparison.run("small", small.len(), |i| small[i]());
    if total.unlike == 0 {
        total.add(comparison.run("random", lists, |i| call_lists::random_list(seed, i as u64)));
    }
    if total.unlike == 0 {
        let isolated = |i: usize| isolation_rules::isolated_lists(seed, i as u64 / 2).1[i % 2].clone();
        total.add(comparison.run("isolated", lists / 10, isolated));
    }
    total.unlike == 0 && total.covers()
}

/// Panics if the model does not print the worked lists as they are worked out by hand.
fn check_examples() {
    for (lines, print) in small_lists::examples() {
        let (mut model, mut got) = (Model::new(Plant::Nothing), String::new());
        lines.iter().for_each(|line| model.play(line, &mut got));
        assert_eq!(got, print, "the model plays a worked list otherwise");
    }
}

/// Plays the list on standard input by the model.
fn play_by_model() {
    let mut calls = String::new();
    std::io::stdin().read_to_string(&mut calls).expect("the calls are read");
    let (mut model, mut print) = (Model::new(Plant::Nothing), String::new());
    calls.lines().for_each(|line| model.play(line, &mut print));
    print!("{print}");
}

/// The planted bug with a name.
fn plant_named(name: &str) -> Plant {
    PLANTS.iter().find(|plant| plant.0 == name).unwrap_or_else(|| panic!("no planted bug has the name {name}")).1
}

fn main() {
    let mut arguments = std::env::args().skip(1).peekable();
    if arguments.next_if_eq("--play").is_some() {
        return play_by_model();
    }
    let name = arguments.next_if_eq("--plant").map(|_| arguments.next().expect("the name of a planted bug"));
    let plant = name.iter().map(|name| plant_named(name)).next().unwrap_or(Plant::Nothing);
    let start = Instant::now();
    check_examples();
    let right = if arguments.next_if_eq("--rules").is_some() {
        let calls = both_rules::hold(plant) && preview_rules::hold(plant);
        let windows = calls && audit_rules::hold(plant) && due_rules::hold(plant);
        windows && isolation_rules::hold(plant)
    } else {
        let player = arguments.next().expect("usage: random_calls [--plant NAME] PLAYER [SEED [LISTS]]");
        let seed: u64 = arguments.next().map_or(1, |s| s.parse().expect("a seed"));
        let lists = arguments.next().map_or(20_000, |s| s.parse().expect("a number of lists"));
        let label = name.iter().map(|name| format!("planted_{name}_")).collect::<String>() + &format!("seed_{seed}");
        compare_all(&Comparison { player, plant, label }, seed, lists)
    };
    println!("random_calls: {:.1} s", start.elapsed().as_secs_f64());
    if !right {
        std::process::exit(1);
    }
}
