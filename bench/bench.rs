//! Measures printers of tapes, and what a user would pick instead, on the same tapes in one run, and prints one table; then ours beside the
//! yardstick whose rows slide, and the public quote beside the one that takes any tables; what a watched pair adds, what eight watches of
//! two desks take beside five of one, what a look behind every quote adds, and what it costs to move the rows of full tables down at each
//! quote, and nothing else, each in a table of its own.
//!
//! usage: bench PRINTER [RUNS]     PRINTER is ours; the other programs stand in build/, and so do the tapes made here

use std::collections::BTreeSet;
use std::fs::File;
use std::io::BufRead;
use std::process::{Command, Stdio};
use std::time::Instant;

const PANEL: &[&str] = &["build/panel"];
const YARDSTICK: &[&str] = &["build/yardstick"];
const JUDGED: &[&str] = &["build/yardstick", "--judged"];
const SLIDES: &[&str] = &["build/yardstick", "--slides"];
const ANY: &[&str] = &["build/yardstick", "--any"];
const PUBLIC: &[&str] = &["build/panel", "--play"];
const PLAIN: &[&str] = &["build/plain_model", "--print"];
const MAKER: &str = "build/make_tape";
const FOLDER: &str = "build/bench_tapes";
const SHAPES: [&str; 4] = ["uniform", "frontier", "drift", "duplicates"];
const MEMORIES: [usize; 3] = [1_024, 256, 64];
/// The quotes of a tape that printers are timed on.
const QUOTES: usize = 50_000;
/// The quotes that fill the longest window and make rows age out before a count or emoa's time begins.
const FILL: usize = 2_048;
/// The quotes behind them that instructions are counted on.
const COUNTED: usize = 5_000;
/// The quotes behind them that emoa is timed on.
const EMOA: usize = 50;
/// The quotes that the plain model is timed on, from the opening.
const SHORT: usize = 512;
/// The quotes that moves alone are timed on.
const MOVES: usize = 200_000;

/// A tape's shape, memory and number of quotes, whether two desks watch or one, whether a pair is watched, and what look stands behind
/// every quote, by the option that it is made with.
#[derive(Clone, Copy)]
struct Tape {
    shape: &'static str,
    memory: usize,
    quotes: usize,
    desks: bool,
    paired: bool,
    behind: Option<&'static str>,
}

impl Tape {
    /// The tape that is measured if nothing else is said: eight watches, which take two desks, and no pair.
    fn new(shape: &'static str, memory: usize) -> Tape {
        Tape { shape, memory, quotes: QUOTES, desks: true, paired: false, behind: None }
    }

    /// The same tape with another number of quotes.
    fn with(self, quotes: usize) -> Tape {
        Tape { quotes, ..self }
    }

    /// The options that it is made with.
    fn options(self) -> Vec<&'static str> {
        self.desks.then_some("--desks").into_iter().chain(self.paired.then_some("--pair")).chain(self.behind).collect()
    }

    /// The file that holds it.
    fn path(self) -> String {
        format!("{FOLDER}/{}{}_{}_{}.tape", self.shape, self.options().join(""), self.memory, self.quotes)
    }

    /// Makes its file, and opens it.
    fn file(self) -> File {
        if !std::path::Path::new(&self.path()).exists() {
            let file = File::create(self.path()).expect("a tape is made");
            let numbers = [self.quotes.to_string(), self.memory.to_string()];
            let made = Command::new(MAKER).args(self.options()).arg(self.shape).args(numbers).stdout(file).status();
            assert!(made.expect("the maker of tapes runs").success());
        }
        File::open(self.path()).expect("a tape is opened")
    }
}

/// A command that is given a tape on standard input.
fn playing(command: &[&str], tape: Tape) -> Command {
    let mut child = Command::new(command[0]);
    child.args(&command[1..]).stdin(tape.file());
    child
}

/// The seconds that a command takes to print a tape to nowhere.
fn seconds(command: &[&str], tape: Tape) -> f64 {
    let mut child = playing(command, tape);
    child.stdout(Stdio::null());
    let start = Instant::now();
    let status = child.status().expect("a printer runs");
    assert!(status.success(), "{} failed on {}", command[0], tape.path());
    start.elapsed().as_secs_f64()
}

/// What a command prints for a tape.
fn print_of(command: &[&str], tape: Tape) -> Vec<u8> {
    playing(command, tape).output().expect("a printer runs").stdout
}

/// The middle one of some times.
fn median(mut times: Vec<f64>) -> f64 {
    times.sort_by(f64::total_cmp);
    times[times.len() / 2]
}

/// What is timed on each tape, in this order: ours, the panel in C over our library, the yardstick, the yardstick with the judgement and,
/// where the memory is the longest, the plain model and emoa.
const CONTENDERS: usize = 6;

/// The nanoseconds a quote of each contender on each tape: medians of runs that go round all of them in turn.
fn times(ours: &str, tapes: &[Tape], runs: usize) -> Vec<[Option<f64>; CONTENDERS]> {
    let mut all = vec![[const { Vec::new() }; CONTENDERS]; tapes.len()];
    for _ in 0..runs {
        for (&tape, [our, panel, yardstick, judged, plain, emoa]) in tapes.iter().zip(&mut all) {
            our.push(a_quote(&[ours], tape));
            panel.push(a_quote(PANEL, tape));
            yardstick.push(a_quote(YARDSTICK, tape));
            judged.push(a_quote(JUDGED, tape));
            if tape.memory == MEMORIES[0] {
                plain.push(a_quote(PLAIN, tape.with(SHORT)));
                emoa.extend(emoa_time(ours, tape));
            }
        }
    }
    all.into_iter().map(|row| row.map(|times| (!times.is_empty()).then(|| median(times)))).collect()
}

/// The nanoseconds a quote that a command takes to print a tape to nowhere.
fn a_quote(command: &[&str], tape: Tape) -> f64 {
    seconds(command, tape) * 1e9 / tape.quotes as f64
}

/// Panics where the prints of a tape differ: the panel's, the yardstick's in each way, and, on a tape's first quotes where the memory is
/// the longest, the plain model's.
fn compare_prints(ours: &str, tape: Tape) {
    for other in [PANEL, PUBLIC, YARDSTICK, JUDGED, SLIDES, ANY] {
        assert!(print_of(&[ours], tape) == print_of(other, tape), "ours and {} differ on {}", other.join(" "), tape.path());
    }
    if tape.memory == MEMORIES[0] {
        let tape = tape.with(SHORT);
        assert!(print_of(&[ours], tape) == print_of(PLAIN, tape), "ours and the plain model differ on {}", tape.path());
    }
}

/// The watches' lists at the end of a tape, by the joins and leaves that a printer prints, in the order of the watches.
fn last_lists(printer: &str, tape: Tape) -> Vec<BTreeSet<usize>> {
    let mut lists: Vec<([String; 2], BTreeSet<usize>)> = Vec::new();
    for line in print_of(&[printer], tape).lines().map(Result::unwrap) {
        let mut fields = line.split(' ').map(str::to_string);
        let (mut desk, n) = (fields.next().unwrap(), fields.next().unwrap());
        let sign = desk.remove(0);
        let watch = [desk, n];
        if sign == 'W' {
            lists.push((watch, BTreeSet::new()));
        } else if sign == '+' || sign == '-' {
            let position = fields.next().unwrap().parse().unwrap();
            let (_, list) = lists.iter_mut().find(|(watched, _)| *watched == watch).unwrap();
            assert!(if sign == '+' { list.insert(position) } else { list.remove(&position) }, "{line} on {}", tape.path());
        }
    }
    lists.into_iter().map(|(_, list)| list).collect()
}

/// The nanoseconds a quote of emoa's nondominated_points, called for eight windows; none where R or emoa is not installed.
fn emoa_time(ours: &str, tape: Tape) -> Option<f64> {
    let tape = tape.with(FILL + EMOA);
    drop(tape.file());
    let output = Command::new("Rscript").args(["bench/emoa.R", &tape.path(), &EMOA.to_string()]).output().ok()?;
    let text = String::from_utf8(output.stdout).ok()?;
    let mut lines = text.lines();
    let time = lines.next()?.trim().parse::<f64>().unwrap() * 1e9;
    let positions = |line: &str| line.split_whitespace().map(|position| position.parse().unwrap()).collect();
    let lists: Vec<BTreeSet<usize>> = lines.map(positions).collect();
    assert!(lists == last_lists(ours, tape), "emoa's lists differ on {}", tape.path());
    Some(time)
}

/// The instructions that a command takes, which is given an input; none where valgrind is not installed.
fn instructions(command: &[&str], input: Stdio) -> Option<f64> {
    let mut valgrind = Command::new("valgrind");
    valgrind.args(["--tool=callgrind", "--callgrind-out-file=/dev/null"]).args(command).stdin(input);
    let output = valgrind.stdout(Stdio::null()).stderr(Stdio::piped()).output().ok()?;
    let said = String::from_utf8_lossy(&output.stderr).into_owned();
    let line = said.lines().find(|line| line.contains("Collected :"))?;
    line.rsplit(' ').next()?.parse().ok()
}

/// The instructions a quote of a printer once the window is full: a run with some more quotes less one without them.
fn instructions_a_quote(printer: &[&str], tape: Tape) -> Option<f64> {
    let whole = |quotes: usize| instructions(printer, tape.with(quotes).file().into());
    Some((whole(FILL + COUNTED)? - whole(FILL)?) / COUNTED as f64)
}

/// The nanoseconds and the instructions that it takes to move the rows of full tables down once, for a memory and a column count.
fn moves(memory: usize, d: usize, runs: usize) -> (f64, Option<f64>) {
    let (memory, d) = (memory.to_string(), d.to_string());
    let command = |quotes: usize| [YARDSTICK[0].to_string(), "--moves".to_string(), memory.clone(), d.clone(), quotes.to_string()];
    let time = |_| {
        let start = Instant::now();
        let words = command(MOVES);
        assert!(Command::new(&words[0]).args(&words[1..]).status().expect("the yardstick runs").success());
        start.elapsed().as_nanos() as f64 / MOVES as f64
    };
    let counted = |quotes: usize| instructions(&command(quotes).each_ref().map(String::as_str), Stdio::null());
    let count = || Some((counted(2 * COUNTED)? - counted(COUNTED)?) / COUNTED as f64);
    (median((0..runs).map(time).collect()), count())
}

/// A number with a comma between thousands.
fn number(value: f64) -> String {
    let digits = format!("{value:.0}");
    let groups: Vec<_> = digits.as_bytes().rchunks(3).rev().map(|group| std::str::from_utf8(group).unwrap()).collect();
    groups.join(",")
}

/// A measured number and its ratio to ours; a dash for what was not measured.
fn beside(value: Option<f64>, ours: f64) -> String {
    value.map_or("- | -".to_string(), |value| format!("{} | {}", number(value), ratio(value / ours)))
}

/// A ratio with two decimals if it is small, else none.
fn ratio(value: f64) -> String {
    if value < 10.0 {
        format!("{value:.2}")
    } else {
        number(value)
    }
}

/// The date, as the command of that name prints it.
fn date() -> String {
    let output = Command::new("date").arg("+%F").output().map(|output| output.stdout).unwrap_or_default();
    String::from_utf8_lossy(&output).trim().to_string()
}

/// The processor's name, the number of its cores and the load.
fn machine() -> String {
    let cpu = std::fs::read_to_string("/proc/cpuinfo").unwrap_or_default();
    let name = cpu.lines().find_map(|line| line.strip_prefix("model name")).unwrap_or(": unknown processor");
    let load = std::fs::read_to_string("/proc/loadavg").unwrap_or_default();
    let load = load.split(' ').next().unwrap_or_default();
    format!("{}, {} cores, load {load}", name.trim_start_matches([' ', '\t', ':']), cpu.matches("model name").count())
}

/// One row of the table: nanoseconds of each contender, and instructions a quote of ours, the panel and the two yardsticks, on one tape.
struct Row {
    tape: Tape,
    times: [Option<f64>; CONTENDERS],
    instructions: [Option<f64>; 4],
}

impl Row {
    /// The times, and the instructions, counted here.
    fn new(ours: &str, tape: Tape, times: [Option<f64>; CONTENDERS]) -> Row {
        let instructions = [&[ours], PANEL, YARDSTICK, JUDGED].map(|printer| instructions_a_quote(printer, tape));
        Row { tape, times, instructions }
    }

    /// The row in print: the first number of each sort is ours, the others stand beside it.
    fn print(&self) {
        let fields = |values: &[Option<f64>]| -> Vec<String> {
            let ours = values[0].map_or("-".to_string(), number);
            let others = values[1..].iter().map(|&value| beside(value, values[0].unwrap_or(f64::NAN)));
            std::iter::once(ours).chain(others).collect()
        };
        let (times, instructions) = (fields(&self.times).join(" | "), fields(&self.instructions).join(" | "));
        println!("| {} | {} | {times} | {instructions} |", self.tape.shape, number(self.tape.memory as f64));
    }
}

/// The table of tapes with a pair and eight watches: ours beside the yardstick whose rows slide as ours do, and the public quote, which the
/// library's player makes, beside the yardstick that judges and takes any tables as it does.
fn print_goals(ours: &str, runs: usize) {
    println!();
    let columns = "ours | slides | x | public | any | x";
    println!("| pair and eight watches, instr, then ns | {columns} | {columns} |");
    println!("|{}", "---|".repeat(13));
    for shape in SHAPES {
        let tape = Tape { paired: true, ..Tape::new(shape, MEMORIES[0]) };
        compare_prints(ours, tape);
        let contenders = [&[ours][..], SLIDES, PUBLIC, ANY];
        let counts = contenders.map(|printer| instructions_a_quote(printer, tape));
        let mut times = [const { Vec::new() }; 4];
        for _ in 0..runs {
            times.iter_mut().zip(contenders).for_each(|(times, printer)| times.push(a_quote(printer, tape)));
        }
        let fields = |[ours, slides, public, any]: [Option<f64>; 4]| {
            let first = |value: Option<f64>| value.map_or("-".to_string(), number);
            let pair = |value: Option<f64>, other| format!("{} | {}", first(value), beside(other, value.unwrap_or(f64::NAN)));
            format!("{} | {}", pair(ours, slides), pair(public, any))
        };
        println!("| {shape} | {} | {} |", fields(counts), fields(times.map(|times| Some(median(times)))));
    }
}

/// A table of a quote's instructions on tapes without something and on tapes with it, of each shape.
fn print_added(ours: &str, name: &str, tapes: [Tape; 2]) {
    println!();
    println!("| {name}, instr | ours without | with | x | yardstick, slides, without | with | x |");
    println!("|{}", "---|".repeat(7));
    for shape in SHAPES {
        let tapes = tapes.map(|tape| Tape { shape, ..tape });
        for tape in tapes {
            compare_prints(ours, tape);
        }
        let counts = [&[ours][..], SLIDES].map(|printer| {
            let [without, with] = tapes.map(|tape| instructions_a_quote(printer, tape));
            format!("{} | {}", without.map_or("-".to_string(), number), beside(with, without.unwrap_or(f64::NAN)))
        });
        println!("| {shape} | {} |", counts.join(" | "));
    }
}

/// The table of a quote's instructions with nothing behind it, with a look at the list of half the memory directly behind it, which is
/// played with it in one, and with the same list by a past look, which is played singly.
fn print_looks(ours: &str) {
    println!();
    let columns = "quotes alone | with looks | a look | with past looks | a past look";
    println!("| looks behind quotes, instr | ours, {columns} | yardstick, slides, {columns} |");
    println!("|{}", "---|".repeat(11));
    for shape in SHAPES {
        let tapes = [None, Some("--look"), Some("--past")].map(|behind| Tape { behind, ..Tape::new(shape, MEMORIES[0]) });
        for tape in tapes {
            compare_prints(ours, tape.with(FILL + COUNTED));
        }
        let counts = [&[ours][..], SLIDES].map(|printer| {
            let [alone, look, past] = tapes.map(|tape| instructions_a_quote(printer, tape));
            let added = |with: Option<f64>| with.zip(alone).map(|(with, alone)| with - alone);
            [alone, look, added(look), past, added(past)].map(|count| count.map_or("-".to_string(), number)).join(" | ")
        });
        println!("| {shape} | {} |", counts.join(" | "));
    }
}

/// The table of moves alone.
fn print_moves(runs: usize) {
    println!();
    println!("| moves alone, N | {} |", [1, 2, 3, 4, 5, 6].map(|d| format!("d = {d}, ns | instr")).join(" | "));
    println!("|---|{}", "---|".repeat(12));
    for memory in MEMORIES {
        let cells = [1, 2, 3, 4, 5, 6].map(|d| {
            let (time, count) = moves(memory, d, runs);
            format!("{} | {}", number(time), count.map_or("-".to_string(), number))
        });
        println!("| {} | {} |", number(memory as f64), cells.join(" | "));
    }
}

/// What the numbers of the table are, and what was skipped.
fn notes(rows: &[Row], runs: usize) {
    println!();
    println!("ns: nanoseconds a quote; x: times ours; instr: instructions a quote by callgrind.");
    println!("Panel: host/panel.c, which makes the public calls from C on tables that may hold anything; public: the same by the library's player.");
    println!("Slides: the yardstick whose rows slide through tables of twice the places, as ours do; any: the one that judges 11 and 12 at every");
    println!("call and takes a quote on any tables.");
    println!("Ours, the panel and the yardstick, without the judgement of 11 and 12 at every call and with it (judged): median of {runs} runs over");
    println!("{QUOTES} quotes and eight watches, four of each desk, in turn; their prints are equal.");
    println!("Plain model: median of {runs} runs over the first {SHORT} quotes, in turn with them, when longer windows are not full yet;");
    println!("its print is equal to ours.");
    if rows[0].times[5].is_some() {
        println!("emoa: median of {runs} runs over {EMOA} quotes after {FILL}, in turn with them; its lists, of equal points the last, are ours.");
    } else {
        println!("emoa is skipped: Rscript or its package emoa (Debian's r-cran-emoa) is not installed.");
    }
    if rows[0].instructions[0].is_some() {
        println!("Instructions: {COUNTED} quotes after {FILL}.");
    } else {
        println!("Instructions are skipped: valgrind is not installed.");
    }
}

fn main() {
    let mut arguments = std::env::args().skip(1);
    let ours = arguments.next().expect("usage: bench PRINTER [RUNS]");
    let runs = arguments.next().map_or(9, |s| s.parse().expect("a number of runs"));
    let _ = std::fs::remove_dir_all(FOLDER);
    std::fs::create_dir_all(FOLDER).expect("a folder for the tapes is made");
    let of_shape = |shape| MEMORIES.map(|memory| Tape::new(shape, memory));
    let tapes: Vec<Tape> = SHAPES.into_iter().flat_map(of_shape).collect();
    for &tape in &tapes {
        compare_prints(&ours, tape);
    }
    println!("{}, {}", date(), machine());
    println!();
    let clocked = "ours ns | panel ns | x | yardstick ns | x | judged ns | x | plain ns | x | emoa ns | x";
    println!("| tape | N | {clocked} | ours instr | panel instr | x | yardstick instr | x | judged instr | x |");
    println!("|{}", "---|".repeat(20));
    let times = times(&ours, &tapes, runs);
    let mut rows = Vec::new();
    for (&tape, &times) in tapes.iter().zip(&times) {
        let row = Row::new(&ours, tape, times);
        row.print();
        rows.push(row);
    }
    let tape = Tape::new(SHAPES[0], MEMORIES[0]);
    print_goals(&ours, runs);
    print_added(&ours, "a watched pair", [tape, Tape { paired: true, ..tape }]);
    print_added(&ours, "eight watches of two desks for five of one", [Tape { desks: false, ..tape }, tape]);
    print_looks(&ours);
    print_moves(runs);
    notes(&rows, runs);
}
