//! The quoting drill against a plain model, written from the text of the change request alone: every game of small hands and few values,
//! where the model enumerates every way of choosing and every order of replies, and random games up to the largest hands, refusals among
//! them, where it judges turn by turn.
//!
//! usage: drill [--plant NAME] PROGRAM [SEED [GAMES]]

mod random;

use random::Random;
use std::collections::BTreeMap;
use std::fs;
use std::process::{exit, Command};

/// The bug that is planted in the model, or none.
static mut PLANT: String = String::new();

fn planted(name: &str) -> bool {
    #[allow(static_mut_refs)]
    unsafe {
        PLANT == name
    }
}

/// A game: the rules, and the quotes of both hands.
#[derive(Clone)]
struct Game {
    d: u32,
    memory: u32,
    directions: u32,
    n: u32,
    first: Vec<Vec<u32>>,
    second: Vec<Vec<u32>>,
}

/// A quote that is laid: whether it is the first side's, and its columns.
type Laid = (bool, Vec<u32>);

impl Game {
    /// The later of two quotes beats an equal one; else the better beats the worse.
    fn beats(&self, laid: &[Laid], p: usize, q: usize) -> bool {
        let (x, y) = (&laid[p].1, &laid[q].1);
        if x == y {
            return p > q && !planted("equals-stay");
        }
        (0..self.d as usize).all(|i| if self.directions >> i & 1 == 1 { x[i] >= y[i] } else { x[i] <= y[i] })
    }

    /// The first side has won: the list of n after these quotes holds one of its own.
    fn won(&self, laid: &[Laid]) -> bool {
        let n = if planted("list-of-memory") { self.memory } else { self.n } as usize;
        let start = laid.len().saturating_sub(n);
        (start..laid.len()).any(|p| laid[p].0 && !(start..laid.len()).any(|q| self.beats(laid, q, p)))
    }

    /// What is laid where the first side follows a way, from its replies so far to a place, and the second lays in an order.
    fn play(&self, way: &BTreeMap<(usize, Vec<usize>), usize>, order: &[usize]) -> Vec<Laid> {
        let (mut mine, mut theirs) = (self.first.clone(), self.second.clone());
        let (mut laid, mut replies, mut mine_laid) = (Vec::new(), Vec::new(), 0);
        while !mine.is_empty() || !theirs.is_empty() {
            if !mine.is_empty() {
                let place = way[&(mine_laid, replies.clone())];
                laid.push((true, mine.remove(place)));
                mine_laid += 1;
            } else if planted("pass-ends") {
                break;
            }
            if !theirs.is_empty() {
                let place = order[replies.len()];
                laid.push((false, theirs.remove(place)));
                replies.push(place);
            } else if planted("pass-ends") {
                break;
            }
        }
        laid
    }

    /// Every way of choosing whose first place is this one.
    fn ways(&self, place: usize) -> Vec<BTreeMap<(usize, Vec<usize>), usize>> {
        let mut ways = vec![BTreeMap::from([((0, Vec::new()), place)])];
        for turn in 1..self.first.len() {
            for replies in orders(self.second.len(), turn.min(self.second.len())) {
                ways = ways
                    .into_iter()
                    .flat_map(|way| {
                        (0..self.first.len() - turn).map(move |choice| (way.clone(), choice)).collect::<Vec<_>>()
                    })
                    .map(|(mut way, choice)| {
                        way.insert((turn, replies.clone()), choice);
                        way
                    })
                    .collect();
            }
        }
        ways
    }

    /// Whether some way that begins with this place wins against every order of replies.
    fn wins_by_way(&self, place: usize) -> bool {
        let replies = orders(self.second.len(), self.second.len());
        self.ways(place).iter().any(|way| {
            let mut outcomes = replies.iter().map(|order| self.won(&self.play(way, order)));
            if planted("some-reply") { outcomes.any(|won| won) } else { outcomes.all(|won| won) }
        })
    }

    /// Whether the first side wins, turn by turn.
    fn wins(&self, turn: bool, mine: &[Vec<u32>], theirs: &[Vec<u32>], laid: &[Laid]) -> bool {
        if mine.is_empty() && theirs.is_empty() {
            return self.won(laid);
        }
        let hand = if turn { mine } else { theirs };
        if hand.is_empty() {
            return if planted("pass-ends") { self.won(laid) } else { self.wins(!turn, mine, theirs, laid) };
        }
        let mut outcomes = (0..hand.len()).map(|i| {
            let (mut rest, mut after) = (hand.to_vec(), laid.to_vec());
            after.push((turn, rest.remove(i)));
            if turn { self.wins(false, &rest, theirs, &after) } else { self.wins(true, mine, &rest, &after) }
        });
        if turn || planted("some-reply") { outcomes.any(|won| won) } else { outcomes.all(|won| won) }
    }

    /// Whether laying this place first keeps the win, turn by turn.
    fn keeps(&self, place: usize) -> bool {
        let mut rest = self.first.clone();
        let laid = vec![(true, rest.remove(place))];
        self.wins(false, &rest, &self.second, &laid)
    }

    /// The refusal, if there is one.
    fn refusal(&self) -> Option<u32> {
        let settings = (1..=6).contains(&self.d)
            && (1..=1024).contains(&self.memory)
            && (self.directions as u64) < 1 << self.d;
        let size = self.first.len() > 4 || self.second.len() > 4 || self.memory > 8;
        let columns = self.first.iter().chain(&self.second).any(|quote| quote.len() != self.d as usize);
        let window = self.n == 0 || self.n > self.memory;
        let tests = if planted("four-first") {
            [(!settings, 3), (columns, 4), (size, 19), (window, 5)]
        } else {
            [(!settings, 3), (size, 19), (columns, 4), (window, 5)]
        };
        tests.iter().find(|test| test.0).map(|test| test.1)
    }

    /// The line that the program has to print, with a test of whether a place keeps the win.
    fn line(&self, keeps: impl Fn(usize) -> bool) -> String {
        if let Some(number) = self.refusal() {
            return format!("R {number}\n");
        }
        let mut places = (0..self.first.len()).filter(|&place| keeps(place));
        let place = if planted("last-place") { places.last() } else { places.next() };
        place.map_or("no\n".into(), |place| format!("yes {}\n", place + 1))
    }
}

/// Every sequence of k places in which a hand of so many quotes can be laid.
fn orders(count: usize, k: usize) -> Vec<Vec<usize>> {
    if k == 0 {
        return vec![Vec::new()];
    }
    orders(count, k - 1)
        .into_iter()
        .flat_map(|order| (0..count + 1 - k).map(move |place| [order.clone(), vec![place]].concat()))
        .collect()
}

/// The frames of a hand.
fn frames(hand: &[Vec<u32>]) -> Vec<u8> {
    hand.iter()
        .flat_map(|quote| {
            let mut frame = vec![quote.len() as u8];
            quote.iter().for_each(|column| frame.extend(column.to_le_bytes()));
            frame
        })
        .collect()
}

/// The files of the two hands; each run has its own.
fn files() -> [String; 2] {
    ["first", "second"].map(|hand| format!("build/drill_{}_{hand}", std::process::id()))
}

/// Ends the run with a line on what differs.
fn differ(what: String) -> ! {
    println!("the answers differ: {what}");
    files().iter().for_each(|file| drop(fs::remove_file(file)));
    exit(1)
}

/// Runs the program on a game, with these bytes for the hands, and compares what it prints.
fn compare(program: &str, game: &Game, first: &[u8], second: &[u8], expected: &str) {
    let files = files();
    fs::write(&files[0], first).unwrap();
    fs::write(&files[1], second).unwrap();
    let numbers = [game.d, game.memory, game.directions, game.n].map(|number| number.to_string());
    let output = Command::new(program).args(numbers).args(&files).output().unwrap();
    let printed = String::from_utf8_lossy(&output.stdout).into_owned();
    if printed != expected {
        differ(format!(
            "d {} N {} directions {} n {} first {:?} second {:?}: {:?}, not {:?}",
            game.d, game.memory, game.directions, game.n, game.first, game.second, printed, expected
        ));
    }
}

/// Every hand of at most so many quotes of one column with these values.
fn hands(most: usize, values: u32) -> Vec<Vec<Vec<u32>>> {
    let mut all = vec![Vec::new()];
    let mut last = all.clone();
    for _ in 0..most {
        last = last
            .iter()
            .flat_map(|hand: &Vec<Vec<u32>>| (1..=values).map(move |value| [hand.clone(), vec![vec![value]]].concat()))
            .collect();
        all.extend(last.clone());
    }
    all
}

/// Every game of small hands, by ways and turn by turn: how many.
fn small_games(program: &str, seen: &mut BTreeMap<String, usize>) -> usize {
    let mut games = 0;
    for (most, values, windows) in [(2, 3, &[(1, 1), (2, 2), (3, 2)][..]), (3, 2, &[(2, 1), (4, 3), (8, 8)][..])] {
        for first in hands(most, values) {
            for second in hands(most, values) {
                for &(memory, n) in windows {
                    let game = Game { d: 1, memory, directions: 0, n, first: first.clone(), second: second.clone() };
                    let line = game.line(|place| game.wins_by_way(place));
                    if line != game.line(|place| game.keeps(place)) {
                        differ(format!("by ways and turn by turn: N {memory} n {n} {first:?} {second:?}"));
                    }
                    compare(program, &game, &frames(&first), &frames(&second), &line);
                    *seen.entry(line.trim().split(' ').next().unwrap().into()).or_default() += 1;
                    games += 1;
                }
            }
        }
    }
    games
}

/// Worked games of one column, lower better: the memory and n, both hands, and the line.
const WORKED: [(u32, &[u32], &[u32], &str); 7] = [
    (1, &[5], &[7], "no\n"),
    (1, &[5, 6], &[7], "yes 1\n"),
    (2, &[3], &[3], "no\n"),
    (2, &[9, 1], &[5], "yes 1\n"),
    (2, &[1, 9], &[5], "yes 2\n"),
    (1, &[], &[], "no\n"),
    (1, &[8], &[], "yes 1\n"),
];

/// The worked games, by the program and by the model.
fn worked_games(program: &str) {
    for (memory, first, second, line) in WORKED {
        let [first, second] = [first, second].map(|hand| hand.iter().map(|&value| vec![value]).collect::<Vec<_>>());
        let game = Game { d: 1, memory, directions: 0, n: memory, first, second };
        compare(program, &game, &frames(&game.first), &frames(&game.second), line);
        if game.line(|place| game.wins_by_way(place)) != line {
            differ(format!("the model on {:?} {:?}", game.first, game.second));
        }
    }
}

/// A random hand.
fn hand(random: &mut Random, d: u32, most: u64) -> Vec<Vec<u32>> {
    let values = 2 + random.below(4);
    (0..random.below(most + 1)).map(|_| (0..d).map(|_| random.below(values) as u32).collect()).collect()
}

/// Random games: some with a refusal's condition, some with a damaged file.
fn random_games(program: &str, seed: u64, games: usize, seen: &mut BTreeMap<String, usize>) {
    let mut random = Random::new(seed, 0);
    for _ in 0..games {
        let d = 1 + random.below(3) as u32;
        let memory = 1 + random.below(8) as u32;
        let mut game = Game {
            d,
            memory,
            directions: random.below(1 << d) as u32,
            n: 1 + random.below(memory as u64) as u32,
            first: hand(&mut random, d, 4),
            second: hand(&mut random, d, 4),
        };
        match random.below(12) {
            0 => game.directions = 1 << d,
            1 => game.memory = [0, 9, 1024, 1025][random.below(4) as usize],
            2 => game.first = vec![vec![1; (d + 1) as usize]; random.below(7) as usize],
            3 => game.second.push(vec![7; 4]),
            4 => game.n = [0, game.memory + 1][random.below(2) as usize],
            _ => {}
        }
        let (mut first, mut second) = (frames(&game.first), frames(&game.second));
        let mut line = game.line(|place| game.keeps(place));
        if random.below(8) == 0 {
            let (frame, number) = [(vec![9], 1), (vec![2, 0, 0], 2), (vec![16, 1, 0], 7)][random.below(3) as usize].clone();
            if random.below(2) == 0 {
                first.extend(frame);
                line = format!("R {number}\n");
            } else {
                second.extend(frame);
                line = format!("R {number}\n");
            }
        }
        compare(program, &game, &first, &second, &line);
        *seen.entry(line.trim().replace("yes ", "yes, place ")).or_default() += 1;
    }
}

fn main() {
    let mut arguments: Vec<String> = std::env::args().skip(1).collect();
    if arguments.first().is_some_and(|argument| argument == "--plant") {
        unsafe { PLANT = arguments[1].clone() };
        arguments.drain(..2);
    }
    let number = |i: usize, default: u64| arguments.get(i).map_or(default, |word| word.parse().unwrap());
    let mut seen = BTreeMap::new();
    let program = &arguments[0];
    fs::create_dir_all("build").unwrap();
    worked_games(program);
    random_games(program, number(1, 1), number(2, 600) as usize, &mut seen);
    let small = small_games(program, &mut seen);
    files().iter().for_each(|file| fs::remove_file(file).unwrap());
    for answer in ["no", "yes", "yes, place 1", "yes, place 2", "R 1", "R 2", "R 3", "R 4", "R 5", "R 7", "R 19"] {
        if !seen.contains_key(answer) {
            println!("the answer {answer} never came");
            exit(1);
        }
    }
    println!("the drill: {small} small games by every way of choosing, {} random ones: all as the model", number(2, 600));
}
