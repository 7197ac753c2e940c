//! Plays random and damaged tapes through the tape printer and through a plain model of the format, and compares what they print,
//! byte for byte.
//!
//! usage: plain_model [--plant NAME] PRINTER [SEED [TAPES]]
//!                                       compare the printer, a command with its arguments, with the model, or with a model that has a bug
//!                                       planted, on random tapes
//!        plain_model --print < TAPE     print a tape by the model alone

mod frames;
mod model;
mod piped;
mod random;
mod random_tapes;

use model::{played, print_of, Plant, Shares};
use std::io::Read;
use std::sync::atomic::{AtomicBool, AtomicUsize, Ordering};
use std::time::Instant;

const THREADS: usize = 2;
/// The words that lines begin with.
const WORDS: [&str; 17] = ["O", "Q", "L", "P", "W", "U", "W2", "U2", "B", "E", "-", "+", "-2", "+2", "--", "++", "R"];
/// The refusals that a tape of some quotes can bring; 6 asks for 16,777,215 of them.
const REFUSALS: [usize; 10] = [1, 2, 3, 4, 5, 7, 8, 9, 10, 14];
/// The planted bugs by name.
const PLANTS: [(&str, Plant); 13] = [
    ("equals-stay", Plant::EqualsStay),
    ("earlier-stands", Plant::EarlierStands),
    ("oldest", Plant::Oldest),
    ("window", Plant::Window),
    ("kept", Plant::Kept),
    ("misprint", Plant::Misprint),
    ("upper", Plant::Upper),
    ("pair-first", Plant::PairFirst),
    ("nine-first", Plant::NineFirst),
    ("pair-end", Plant::PairEnd),
    ("nine-at-eight", Plant::NineAtEight),
    ("desk-two-first", Plant::DeskTwoFirst),
    ("watch2-by-one", Plant::Watch2ByOne),
];

/// What is compared: the printer and the model with a planted bug or none, on the tapes of a seed; the label names failing tapes.
struct Comparison {
    printer: String,
    plant: Plant,
    seed: u64,
    label: String,
}

/// How many tapes were printed alike and how many not, how often each word and each refusal stood in the model's print, and the shares
/// of the desks that it saw.
#[derive(Default)]
struct Tally {
    alike: usize,
    unlike: usize,
    words: [usize; WORDS.len()],
    refusals: [usize; 15],
    shares: Shares,
}

impl Tally {
    /// Counts the lines of a print.
    fn count(&mut self, print: &str) {
        for line in print.lines() {
            let said = line.split(' ').next().unwrap();
            self.words[WORDS.iter().position(|&word| word == said).expect("a known word")] += 1;
            if let Some(number) = line.strip_prefix("R ") {
                self.refusals[number.parse::<usize>().unwrap()] += 1;
            }
        }
    }

    /// Adds another tally.
    fn add(&mut self, other: &Tally) {
        self.alike += other.alike;
        self.unlike += other.unlike;
        for (sum, more) in self.words.iter_mut().zip(other.words) {
            *sum += more;
        }
        for (sum, more) in self.refusals.iter_mut().zip(other.refusals) {
            *sum += more;
        }
        self.shares.add(&other.shares);
    }

    /// Whether the desks had every number of watches that they may have, and each got 9 while fewer than eight stood.
    fn covers_shares(&self) -> bool {
        let counts = || (0..=8).flat_map(|one| (0..=8).map(move |two| (one, two)));
        let allowed = counts().filter(|&(one, two)| Shares::allowed(one, two)).count();
        let stood = counts().filter(|&(one, two)| self.shares.stood[one][two]).count();
        let [one, two] = self.shares.early_nines;
        println!("plain_model: {stood} of {allowed} shares of the desks stood; 9 below eight: desk one {one}, desk two {two} times");
        stood == allowed && one > 0 && two > 0
    }

    /// Says how often each word and each refusal came, and whether every one did, and every share.
    fn covers(&self) -> bool {
        let refusals: Vec<_> = REFUSALS.iter().map(|&number| (number, self.refusals[number])).collect();
        let said: Vec<_> = WORDS.iter().zip(self.words).map(|(word, times)| format!("{word} {times}")).collect();
        let refused: Vec<_> = refusals.iter().map(|(number, times)| format!("R {number} {times}")).collect();
        println!("plain_model: lines printed: {}; of them {}", said.join(", "), refused.join(", "));
        let lines = self.words.iter().all(|&times| times > 0) && refusals.iter().all(|&(_, times)| times > 0);
        let covered = self.covers_shares() && lines;
        if !covered {
            eprintln!("plain_model: a word, a refusal or a share never came: more tapes are needed");
        }
        covered
    }
}

/// Saves a tape on which printer and model differ, and says where they do.
fn report(name: &str, tape: &[u8], want: &str, got: &[u8]) {
    let path = format!("build/failing_{name}.tape");
    std::fs::create_dir_all("build").and_then(|()| std::fs::write(&path, tape)).expect("the failing tape is saved");
    let got = String::from_utf8_lossy(got);
    let line = want.lines().zip(got.lines()).take_while(|(a, b)| a == b).count();
    eprintln!("plain_model: {name}: the prints differ at line {}, tape saved as {path}", line + 1);
    eprintln!("  model:   {:?}", want.lines().nth(line));
    eprintln!("  printer: {:?}", got.lines().nth(line));
}

impl Comparison {
    /// Compares printer and model on one tape.
    fn compare(&self, name: &str, tape: &[u8], tally: &mut Tally) -> bool {
        let (want, shares) = played(tape, self.plant);
        tally.count(&want);
        tally.shares.add(&shares);
        let (got, well) = piped::printed(&self.printer, tape);
        let alike = got == want.as_bytes() && well;
        if alike {
            tally.alike += 1;
        } else {
            tally.unlike += 1;
            report(name, tape, &want, &got);
        }
        alike
    }

    /// Compares printer and model on the tapes of a run, on all threads, up to the first difference.
    fn run(&self, name: &str, count: usize, tape: impl Fn(usize) -> Vec<u8> + Sync) -> Tally {
        let (next, stop) = (AtomicUsize::new(0), AtomicBool::new(false));
        let work = || {
            let mut tally = Tally::default();
            while !stop.load(Ordering::Relaxed) {
                let i = next.fetch_add(1, Ordering::Relaxed);
                if i >= count {
                    break;
                }
                if !self.compare(&format!("{}_{name}{i}", self.label), &tape(i), &mut tally) {
                    stop.store(true, Ordering::Relaxed);
                }
            }
            tally
        };
        let mut total = Tally::default();
        std::thread::scope(|scope| {
            let workers: Vec<_> = (0..THREADS).map(|_| scope.spawn(work)).collect();
            for worker in workers {
                total.add(&worker.join().expect("a thread of the comparison ends"));
            }
        });
        println!("plain_model: {}: {name} tapes: {} printed alike, {} not", self.label, total.alike, total.unlike);
        total
    }
}

/// Compares printer and model on all sorts of tapes; yes if no print differs and every line and refusal came.
fn compare_all(comparison: &Comparison, tapes: usize) -> bool {
    let seed = comparison.seed;
    let edges = random_tapes::edge_tapes(seed);
    let mut total = comparison.run("edge", edges.len(), |i| edges[i].clone());
    if total.unlike == 0 {
        total.add(&comparison.run("random", tapes, |i| random_tapes::random_tape(seed, i as u64)));
    }
    if total.unlike == 0 {
        total.add(&comparison.run("flipped", tapes / 4, |i| random_tapes::flipped_tape(seed, i as u64)));
    }
    total.unlike == 0 && total.covers()
}

/// The planted bug with a name.
fn plant_named(name: &str) -> Plant {
    PLANTS.iter().find(|plant| plant.0 == name).unwrap_or_else(|| panic!("no planted bug has the name {name}")).1
}

/// Panics if the model does not print the worked tapes as they are worked out by hand.
fn check_examples() {
    for (tape, print) in random_tapes::examples() {
        assert_eq!(print_of(&tape, Plant::Nothing), print, "the model prints a worked tape otherwise");
    }
}

/// Prints the tape on standard input by the model.
fn print_by_model() {
    let mut tape = Vec::new();
    std::io::stdin().read_to_end(&mut tape).expect("the tape is read");
    print!("{}", print_of(&tape, Plant::Nothing));
}

fn main() {
    let mut arguments = std::env::args().skip(1).peekable();
    if arguments.next_if_eq("--print").is_some() {
        return print_by_model();
    }
    check_examples();
    let name = arguments.next_if_eq("--plant").map(|_| arguments.next().expect("the name of a planted bug"));
    let printer = arguments.next().expect("usage: plain_model [--plant NAME] PRINTER [SEED [TAPES]]");
    let seed: u64 = arguments.next().map_or(1, |s| s.parse().expect("a seed"));
    let tapes = arguments.next().map_or(20_000, |s| s.parse().expect("a number of tapes"));
    let label = name.iter().map(|name| format!("planted_{name}_")).collect::<String>() + &format!("seed_{seed}");
    let plant = name.map_or(Plant::Nothing, |name| plant_named(&name));
    let start = Instant::now();
    let right = compare_all(&Comparison { printer, plant, seed, label }, tapes);
    println!("plain_model: {:.1} s", start.elapsed().as_secs_f64());
    if !right {
        std::process::exit(1);
    }
}
