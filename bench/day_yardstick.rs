//! The day sheet by hand in Rust: the same frames, cells and halves, for `make bench` to compare with.
//!
//! usage: day_yardstick D DIRECTIONS < quote frames of D columns each

use std::io::{Read, Write};

/// The quotes of a day: their columns side by side, high ones turned so that lower is better.
struct Day {
    d: usize,
    cells: Vec<u32>,
}

impl Day {
    /// The columns of the quote at a position.
    fn quote(&self, position: u32) -> &[u32] {
        &self.cells[(position as usize - 1) * self.d..][..self.d]
    }

    /// Whether the quote q is over p: nowhere worse, and better somewhere or the later one.
    fn over(&self, q: u32, p: u32) -> bool {
        let (x, y) = (self.quote(q), self.quote(p));
        x.iter().zip(y).all(|(x, y)| x <= y) && (p < q || x != y)
    }

    /// Keeps of the positions those over which none of the others is, and returns how many.
    fn thin(&self, these: &mut [u32], others: &[u32]) -> usize {
        let mut kept = 0;
        for i in 0..these.len() {
            let p = these[i];
            if !others.iter().any(|&q| self.over(q, p)) {
                these[kept] = p;
                kept += 1;
            }
        }
        kept
    }

    /// Finds the sheet of the positions from first on, one for each cell, at the front of the cells.
    fn find(&self, first: u32, found: &mut [u32]) -> usize {
        if found.len() < 2 {
            found.fill(first);
            return found.len();
        }
        let half = found.len() / 2;
        let (older, newer) = found.split_at_mut(half);
        let older_count = self.find(first, older);
        let newer_count = self.find(first + half as u32, newer);
        let kept = self.thin(&mut older[..older_count], &newer[..newer_count]);
        let left = self.thin(&mut newer[..newer_count], &older[..kept]);
        found.copy_within(half..half + left, kept);
        kept + left
    }
}

fn main() {
    let mut arguments = std::env::args().skip(1).map(|word| word.parse::<u32>().expect("a number"));
    let (d, directions) = (arguments.next().expect("D") as usize, arguments.next().expect("DIRECTIONS"));
    let mut tape = Vec::new();
    std::io::stdin().read_to_end(&mut tape).expect("the frames are read");
    let frames = tape.chunks_exact(1 + 4 * d);
    let count = frames.len();
    let cells = frames.flat_map(|frame| {
        frame[1..].chunks_exact(4).enumerate().map(|(i, cell)| {
            let turned = if directions >> i & 1 == 1 { u32::MAX } else { 0 };
            u32::from_le_bytes(cell.try_into().unwrap()) ^ turned
        })
    });
    let day = Day { d, cells: cells.collect() };
    let mut found = [0u32; 4_096];
    let kept = day.find(1, &mut found[..count]);
    let line: String = found[..kept].iter().map(|position| format!(" {position}")).collect();
    std::io::stdout().write_all(format!("D{line}\n").as_bytes()).expect("the line is written");
}
