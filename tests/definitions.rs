//! Lists and rows after a tape, worked out from its quotes by the papers' definitions, and all tapes of small settings.

use std::ops::Range;

/// The settings of a book, and the values that its columns take.
#[derive(Clone, Copy)]
pub struct Settings {
    pub d: usize,
    pub memory: usize,
    pub directions: u32,
    pub values: &'static [u32],
}

/// The quotes of a tape, columns behind columns; or a book: live and held count, then the N places of columns,
/// positions, lower ends and upper ends.
pub type Cells = Vec<u32>;

impl Settings {
    /// Whether the quote with one index beats the one with another: no worse in every column, and better in at least one
    /// or, equal in every column, the later one.
    fn beats(self, quotes: &[u32], i: usize, j: usize) -> bool {
        let better = |i: usize, j: usize, column: usize| {
            let (x, y) = (quotes[i * self.d + column], quotes[j * self.d + column]);
            if self.directions >> column & 1 == 1 {
                x > y
            } else {
                x < y
            }
        };
        let no_worse = (0..self.d).all(|column| !better(j, i, column));
        no_worse && (i > j || (0..self.d).any(|column| better(i, j, column)))
    }

    /// The positions of a range of quotes that no quote of that range beats.
    fn unbeaten(self, quotes: &[u32], range: Range<usize>) -> Vec<u32> {
        let beaten = |i: usize| range.clone().any(|j| self.beats(quotes, j, i));
        range.clone().filter(|&i| !beaten(i)).map(|i| i as u32 + 1).collect()
    }

    /// The list of n after the first M quotes of a tape.
    pub fn list(self, quotes: &[u32], newest: usize, n: usize) -> Vec<u32> {
        self.unbeaten(quotes, newest.saturating_sub(n)..newest)
    }

    /// The past list of n1 and n2 after the first M quotes of a tape.
    pub fn past_list(self, quotes: &[u32], newest: usize, n1: usize, n2: usize) -> Vec<u32> {
        self.unbeaten(quotes, newest.saturating_sub(n2)..(newest + 1).saturating_sub(n1))
    }

    /// The positions that are due to n1 and n2 after the first M quotes of a tape: those behind the end of the past
    /// list that no older quote from its start on beats.
    pub fn due(self, quotes: &[u32], newest: usize, n1: usize, n2: usize) -> Vec<u32> {
        let (start, end) = (newest.saturating_sub(n2), (newest + 1).saturating_sub(n1));
        let beaten = |i: usize| (start..i).any(|j| self.beats(quotes, j, i));
        (end..newest).filter(|&i| !beaten(i)).map(|i| i as u32 + 1).collect()
    }

    /// What a tape leaves, by the definitions of rows and their ends, with zeros behind them.
    pub fn left_by(self, quotes: &[u32]) -> Cells {
        let newest = quotes.len() / self.d;
        let window = newest.saturating_sub(self.memory)..newest;
        let position = |index: Option<usize>| index.map_or(0, |i| i as u32 + 1);
        let lower = |i: usize| position((window.start..i).rev().find(|&j| self.beats(quotes, j, i)));
        let upper = |i: usize| position((i + 1..newest).find(|&j| self.beats(quotes, j, i)));
        let filled = |cell: &dyn Fn(usize) -> u32| {
            let mut cells: Cells = window.clone().map(cell).collect();
            cells.resize(self.memory, 0);
            cells
        };
        let mut columns = quotes[window.start * self.d..].to_vec();
        columns.resize(self.memory * self.d, 0);
        let live = window.clone().filter(|&i| upper(i) == 0).count() as u32;
        let counts = vec![live, window.len() as u32];
        [counts, columns, filled(&|i| i as u32 + 1), filled(&lower), filled(&upper)].concat()
    }

    /// Every tape of M quotes.
    pub fn tapes(self, newest: usize) -> Vec<Cells> {
        let mut tapes = Vec::new();
        each_way(&vec![self.values.to_vec(); newest * self.d], |tape| {
            tapes.push(tape.clone());
            true
        });
        tapes
    }
}

/// Numbers with a space before each.
pub fn fields(numbers: &[u32]) -> String {
    numbers.iter().map(|number| format!(" {number}")).collect()
}

/// Calls a function on every way of choosing one of each of some lists, as long as it says to go on.
pub fn each_way(choices: &[Vec<u32>], mut go_on: impl FnMut(&Cells) -> bool) {
    let mut chosen = vec![0; choices.len()];
    let mut cells: Cells = choices.iter().map(|choice| choice[0]).collect();
    while go_on(&cells) {
        let Some(i) = (0..choices.len()).find(|&i| chosen[i] + 1 < choices[i].len()) else {
            return;
        };
        chosen[..i].fill(0);
        chosen[i] += 1;
        for j in 0..=i {
            cells[j] = choices[j][chosen[j]];
        }
    }
}
