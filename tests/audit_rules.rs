//! The model's audit held against the paper's other way of saying it, 'some tape leaves this book', and its quotes and
//! looks against the definitions of rows and lists, by trying every tape of small settings.

use crate::call_lists::outputs_of;
use crate::call_model::{Head, Model, Plant};
use crate::definitions::{each_way, fields, Cells, Settings};
use std::collections::HashSet;

/// Which books are tried beside those that tapes leave.
#[derive(Clone, Copy)]
enum Tried {
    /// Both counts and the N places of each table in every way, with values one step out of range.
    AllCells,
    /// The right positions with every live count, all columns and ends in every way, and zeros and ones behind them.
    AllEnds,
    /// Every book that differs in one count or cell from one that a tape leaves.
    OneOff,
}

/// How many books were compared, how many of them tapes leave, and how many of these have a retired row.
#[derive(Default)]
struct Compared {
    books: usize,
    left: usize,
    retired: usize,
}

impl Settings {
    /// Puts a book of M quotes into a model.
    fn put(self, model: &mut Model, newest: u32, cells: &[u32]) {
        let (n, d) = (self.memory, self.d as u32);
        let (memory, directions, live, held) = (n as u32, self.directions, cells[0], cells[1]);
        model.head = Head { d, memory, directions, newest, live, held, pair: (0, 0) };
        let (columns, ends) = cells[2..].split_at(n * self.d);
        model.columns[..columns.len()].copy_from_slice(columns);
        model.positions[..n].copy_from_slice(&ends[..n]);
        model.lower[..n].copy_from_slice(&ends[n..2 * n]);
        model.upper[..n].copy_from_slice(&ends[2 * n..]);
    }

    /// Whether the calls of a tape leave the model with the book, and every list and past list, that the definitions
    /// give; every quote, with a look in one, gives the lists too.
    fn called_alike(self, plant: Plant, quotes: &[u32]) -> bool {
        let (mut model, mut print) = (Model::new(plant), String::new());
        model.play(&format!("open {} {} {}", self.d, self.memory, self.directions), &mut print);
        let mut looked = true;
        for (i, quote) in quotes.chunks(self.d).enumerate() {
            looked &= (1..=self.memory).all(|n| self.looked_alike(&model, quotes, i, n));
            model.play(&format!("quote{}", fields(quote)), &mut print);
        }
        let (n, newest) = (self.memory, quotes.len() / self.d);
        let mut alike = |call: String, list: &[u32]| {
            print.clear();
            model.play(&call, &mut print);
            print.lines().nth(1).unwrap_or("X") == format!("X{}", fields(list))
        };
        let listed = (1..=n).all(|n| alike(format!("look {n}"), &self.list(quotes, newest, n)));
        let mut pairs = (1..=n).flat_map(|n1| (n1..=n).map(move |n2| (n1, n2)));
        let past = pairs.all(|(n1, n2)| alike(format!("past {n1} {n2}"), &self.past_list(quotes, newest, n1, n2)));
        let counts = [model.head.live, model.head.held];
        let ends = [&model.positions[..n], &model.lower[..n], &model.upper[..n]].concat();
        let cells = [&counts[..], &model.columns[..n * self.d], &ends].concat();
        looked && listed && past && cells == self.left_by(quotes)
    }

    /// Whether a quote of a tape with a look at n in one, on a copy of a model that has played those before it, gives the
    /// list by the definitions.
    fn looked_alike(self, model: &Model, quotes: &[u32], before: usize, n: usize) -> bool {
        let (mut copy, mut print) = (model.clone(), String::new());
        let quote = &quotes[before * self.d..(before + 1) * self.d];
        copy.play(&format!("both {n}{}", fields(quote)), &mut print);
        outputs_of(&print).1 == self.list(quotes, before + 1, n)
    }

    /// The values that the counts and cells of a book of M quotes are given, each by itself.
    fn all_cells(self, newest: u32) -> Vec<Vec<u32>> {
        let (n, up_to) = (self.memory, |most: u32| (0..=most).collect::<Vec<_>>());
        let counts = vec![up_to(n as u32 + 1); 2];
        let columns = vec![self.values.to_vec(); n * self.d];
        [counts, columns, vec![up_to(newest + 1); n], vec![up_to(newest); n], vec![up_to(newest + 1); n]].concat()
    }

    /// The same where the positions and the held count are right.
    fn all_ends(self, newest: u32) -> Vec<Vec<u32>> {
        let memory = self.memory as u32;
        let held = memory.min(newest);
        let row = |place: u32| (place < held).then_some(newest + 1 - held + place);
        let odd = vec![0, 1];
        let cells = |cell: &dyn Fn(u32) -> Vec<u32>| -> Vec<Vec<u32>> {
            (0..memory).map(|place| row(place).map_or(odd.clone(), cell)).collect()
        };
        let columns = (0..memory).flat_map(|place| {
            let column = row(place).map_or(odd.clone(), |_| self.values.to_vec());
            vec![column; self.d]
        });
        let counts = vec![(0..=memory + 1).collect(), vec![held]];
        let lower = cells(&|position| (0..=position).collect());
        let upper = cells(&|position| [0].into_iter().chain(position..=newest + 1).collect());
        [counts, columns.collect(), cells(&|position| vec![position]), lower, upper].concat()
    }

    /// Calls a function on every book that is tried, as long as it says to go on.
    fn each_tried(self, tried: Tried, newest: u32, left: &HashSet<Cells>, go_on: impl FnMut(&Cells) -> bool) {
        match tried {
            Tried::AllCells => each_way(&self.all_cells(newest), go_on),
            Tried::AllEnds => each_way(&self.all_ends(newest), go_on),
            Tried::OneOff => each_one_off(&self.all_cells(newest + 1), left, go_on),
        }
    }

    /// Compares the audit with the tapes on books of M quotes; a message if they differ.
    fn compare(self, plant: Plant, newest: u32, tried: Tried, compared: &mut Compared) -> Result<(), String> {
        let tapes = self.tapes(newest as usize);
        if let Some(tape) = tapes.iter().find(|tape| !self.called_alike(plant, tape)) {
            return Err(format!("the calls of the tape {tape:?} leave another book or list than the definitions"));
        }
        let left: HashSet<Cells> = tapes.iter().map(|tape| self.left_by(tape)).collect();
        let mut model = Model::new(plant);
        let mut passes = |cells: &Cells| {
            self.put(&mut model, newest, cells);
            model.audit() == Ok(true)
        };
        if let Some(cells) = left.iter().find(|cells| !passes(cells)) {
            return Err(format!("some tape leaves M {newest}, {cells:?}; the audit does not say yes"));
        }
        let mut wrong = None;
        self.each_tried(tried, newest, &left, |cells| {
            compared.books += 1;
            if passes(cells) && !left.contains(cells) {
                wrong = Some(format!("no tape leaves M {newest}, {cells:?}; the audit says yes"));
            }
            wrong.is_none()
        });
        compared.left += left.len();
        compared.retired += left.iter().filter(|cells| cells[0] < cells[1]).count();
        wrong.map_or(Ok(()), Err)
    }
}

/// Calls a function on every book that has another value in one cell of a book that a tape leaves, as long as it says
/// to go on.
fn each_one_off(choices: &[Vec<u32>], left: &HashSet<Cells>, mut go_on: impl FnMut(&Cells) -> bool) {
    let changes = || (0..).zip(choices).flat_map(|(i, choice)| choice.iter().map(move |&value| (i, value)));
    for book in left {
        for (i, value) in changes() {
            let mut cells = book.clone();
            cells[i] = value;
            if !go_on(&cells) {
                return;
            }
        }
    }
}

/// Tries the audit and the calls on all books and tapes of small settings; yes if nothing differs.
pub fn hold(plant: Plant) -> bool {
    const EDGES: &[u32] = &[0, 1, u32::MAX - 1, u32::MAX];
    const TWO: &[u32] = &[0, u32::MAX];
    const THREE: &[u32] = &[0, 1, u32::MAX];
    let settings = |d, memory, directions, values| Settings { d, memory, directions, values };
    let runs = [
        (settings(1, 1, 0, EDGES), Tried::AllCells, 4),
        (settings(1, 2, 0, TWO), Tried::AllCells, 4),
        (settings(1, 2, 1, TWO), Tried::AllCells, 3),
        (settings(1, 3, 0, THREE), Tried::AllEnds, 5),
        (settings(1, 3, 1, THREE), Tried::AllEnds, 4),
        (settings(2, 3, 1, TWO), Tried::AllEnds, 4),
        (settings(1, 4, 0, THREE), Tried::OneOff, 6),
        (settings(2, 4, 2, TWO), Tried::OneOff, 6),
    ];
    let mut compared = Compared::default();
    for (settings, tried, most) in runs {
        for newest in 0..=most {
            if let Err(message) = settings.compare(plant, newest, tried, &mut compared) {
                println!("random_calls: the rules differ: N {}, {message}", settings.memory);
                return false;
            }
        }
    }
    let Compared { books, left, retired } = compared;
    println!("random_calls: the audit's rules and 'some tape leaves it' agree on {books} books");
    println!("random_calls: tapes leave {left} of them, {retired} with a retired row");
    true
}
