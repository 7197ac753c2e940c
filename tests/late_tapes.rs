//! Pairs of tapes made at random from a seed: one on since the morning, and one switched on late with the same quotes from there on. What
//! else stands between the quotes, watches, ends, pairs, looks and refused frames, is in part the same on both and in part not.

use crate::frames;
use crate::random::Random;

/// What the print of a frame is read for.
#[derive(Clone, Copy, PartialEq)]
pub enum Role {
    /// The opening.
    Opening,
    /// A quote that both tapes have.
    Quote,
    /// A look, or a look at a past list, that both have.
    Look,
    /// Anything else.
    Other,
}

/// A tape: its bytes, what each of its frames is read for, and how many of the frames stand before the split.
#[derive(Default)]
pub struct Tape {
    pub bytes: Vec<u8>,
    pub roles: Vec<Role>,
    pub split: usize,
}

/// A pair of tapes, how many quotes the late one missed, and the memory of both.
pub struct Pair {
    pub morning: Tape,
    pub late: Tape,
    pub missed: u32,
    pub memory: usize,
}

/// The settings of a pair of tapes, and how many distinct values a column has.
struct Style {
    d: u8,
    memory: u16,
    directions: u8,
    values: u64,
}

impl Tape {
    /// Lays a frame behind the others.
    fn lay(&mut self, role: Role, frame: impl Fn(&mut Vec<u8>)) {
        frame(&mut self.bytes);
        self.roles.push(role);
    }

    /// A frame of a kind with these numbers of two bytes.
    fn sized(&mut self, role: Role, kind: u8, numbers: &[u16]) {
        self.lay(role, |bytes| {
            bytes.push(kind);
            numbers.iter().for_each(|number| bytes.extend(number.to_le_bytes()));
        });
    }

    /// A quote.
    fn quote(&mut self, role: Role, columns: &[u32]) {
        self.lay(role, |bytes| frames::quote(bytes, columns));
    }
}

impl Style {
    fn new(r: &mut Random) -> Style {
        let (most_columns, most_memory) = ([3, 3, 3, 6][r.below(4) as usize], [9, 9, 9, 40][r.below(4) as usize]);
        let (d, memory) = (1 + r.below(most_columns) as u8, 1 + r.below(most_memory) as u16);
        let values = [2, 3, 6, 1_000_000][r.below(4) as usize];
        Style { d, memory, directions: r.below(1 << d) as u8, values }
    }

    /// The columns of a quote.
    fn columns(&self, r: &mut Random) -> Vec<u32> {
        (0..self.d).map(|_| r.below(self.values) as u32).collect()
    }

    /// An n from 1 to N.
    fn size(&self, r: &mut Random) -> u16 {
        1 + r.below(self.memory.into()) as u16
    }

    /// An n1 from the least on and an n2 not below it, if N has room for them.
    fn sizes(&self, r: &mut Random, least: u16) -> [u16; 2] {
        let n1 = least.min(self.memory) + r.below(u64::from(self.memory - least.min(self.memory)) + 1) as u16;
        [n1, n1 + r.below(u64::from(self.memory - n1) + 1) as u16]
    }

    /// Frames that some of these tapes get between two quotes: a watch or its end, of either desk on each, the pair or its end, a frame that
    /// is refused, a look of its own.
    fn between(&self, r: &mut Random, tapes: &mut [&mut Tape]) {
        let (sort, n, pair) = (r.below(12), self.size(r), self.sizes(r, 2));
        let skipped = if r.below(4) == 0 { r.below(2) as usize } else { tapes.len() };
        for (i, tape) in tapes.iter_mut().enumerate().filter(|(i, _)| *i != skipped) {
            let two = r.below(2) == 1;
            match (sort, i) {
                (0..=4, _) if two => tape.sized(Role::Other, 19, &[n]),
                (0..=4, _) => tape.lay(Role::Other, |bytes| frames::watch(bytes, n)),
                (5 | 6, _) => tape.sized(Role::Other, if two { 20 } else { 18 }, &[n]),
                (7 | 8, _) => tape.sized(Role::Other, 21, &pair),
                (9, _) => tape.sized(Role::Other, 22, &[]),
                (10, 0) => tape.quote(Role::Other, &vec![1; usize::from(self.d % 6) + 1]),
                (10, _) => tape.lay(Role::Other, |bytes| frames::open(bytes, self.d, self.memory, self.directions)),
                _ => tape.sized(Role::Other, 16, &[n]),
            }
        }
    }

    /// Looks that both tapes have.
    fn looks(&self, r: &mut Random, tapes: &mut [&mut Tape]) {
        let (n, past) = (self.size(r), self.sizes(r, 1));
        for tape in tapes {
            tape.sized(Role::Look, 16, &[n]);
            tape.sized(Role::Look, 23, &past);
        }
    }
}

/// A pair of tapes of a seed; the late one is opened with equal settings, or with other directions.
pub fn pair(seed: u64, index: u64, other_directions: bool) -> Pair {
    let mut random = Random::new(seed, index);
    let r = &mut random;
    let style = Style::new(r);
    let (mut morning, mut late) = (Tape::default(), Tape::default());
    let missed = r.below(2 * u64::from(style.memory) + 4) as u32;
    morning.lay(Role::Opening, |bytes| frames::open(bytes, style.d, style.memory, style.directions));
    for _ in 0..missed {
        morning.quote(Role::Other, &style.columns(r));
        style.between(r, &mut [&mut morning]);
    }
    let directions = style.directions ^ u8::from(other_directions);
    late.lay(Role::Opening, |bytes| frames::open(bytes, style.d, style.memory, directions));
    (morning.split, late.split) = (morning.roles.len(), late.roles.len());
    for _ in 0..u64::from(style.memory) + 3 + r.below(12) {
        (0..r.below(3)).for_each(|_| style.between(r, &mut [&mut morning, &mut late]));
        style.looks(r, &mut [&mut morning, &mut late]);
        let columns = style.columns(r);
        morning.quote(Role::Quote, &columns);
        late.quote(Role::Quote, &columns);
    }
    Pair { morning, late, missed, memory: style.memory.into() }
}
