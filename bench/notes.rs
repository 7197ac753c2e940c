//! A pass over each table of rows that anyone may have left: they judge 12, and note where a quote has to look again.

use crate::tables::{before, each_bit, flagged_words, load, Four, Places, Tables, BLOCK, CAPACITY};
use std::arch::asm;
use std::arch::x86_64::*;
use std::ops::Range;

/// No place that an end of an untorn row can name.
pub const NOWHERE: i16 = i16::MAX;
/// So many blocks of rows there are at most.
const BLOCKS: usize = CAPACITY / BLOCK;
/// So many rows are judged at once.
const EIGHT: usize = 8;

/// Every place, eight in a vector.
#[repr(align(16))]
struct Every([i16; CAPACITY]);

/// The places, from 0 on.
static EVERY: Every = {
    let mut places = [0; CAPACITY];
    let mut i = 0;
    while i < CAPACITY {
        places[i] = i as i16;
        i += 1;
    }
    Every(places)
};

/// What is noted of rows whose oldest one has place 0: which rows of each block are live, as the bits of a number; the places that lower
/// ends name, those of older rows negative, and the highest of them; the blocks that have a lower end at place 0 or at the pair's start,
/// and those that have an upper end at the pair's new end.
pub struct Notes {
    live: [u32; BLOCKS],
    lower: [i16; CAPACITY + BLOCK],
    highest: i16,
    named: Places,
    ended: Places,
}

/// What rows are judged by: the first position, how many there are, and the places of the pair's start and of its new end.
pub struct Judged {
    pub first: u32,
    pub held: usize,
    pub start: i16,
    pub end: i16,
}

/// A vector as it is, worked out here and not later, so that few are held at a time.
#[inline(always)]
fn here(mut vector: Four) -> Four {
    unsafe { asm!("/* {} */", inout(xmm_reg) vector, options(pure, nomem, nostack, preserves_flags)) };
    vector
}

/// Eight numbers alike.
#[inline(always)]
fn lanes(number: i16) -> Four {
    unsafe { _mm_set1_epi16(number) }
}

/// The eight numbers of a vector.
fn words(vector: Four) -> [i16; EIGHT] {
    unsafe { std::mem::transmute(vector) }
}

/// Whether all lanes of a vector are set.
fn all_set(vector: Four) -> bool {
    unsafe { _mm_movemask_epi8(vector) == 0xffff }
}

/// Eight cells of a table from one on, less a number, in 16 bits each; what does not fit is the highest or the lowest number.
#[inline(always)]
fn places(cells: (Four, Four), first: Four) -> Four {
    unsafe { _mm_packs_epi32(_mm_sub_epi32(cells.0, first), _mm_sub_epi32(cells.1, first)) }
}

/// Eight cells of a table from one on.
#[inline(always)]
fn eight(cells: &[u32], from: usize) -> (Four, Four) {
    unsafe { (load(cells, from), load(cells, from + 4)) }
}

/// Eight places from one on, which is a multiple of eight.
#[inline(always)]
fn rows_from(from: usize) -> Four {
    debug_assert!(from % EIGHT == 0 && from < CAPACITY);
    unsafe { _mm_load_si128(EVERY.0.as_ptr().add(from).cast()) }
}

/// Whether the positions of some rows, a multiple of eight, are those from the first on.
fn in_order(positions: &[u32], rows: usize, by: &Judged) -> bool {
    let first = unsafe { _mm_set1_epi32(by.first as i32) };
    let mut unlike = lanes(0);
    for from in (0..rows).step_by(EIGHT) {
        unlike = unsafe { _mm_or_si128(unlike, _mm_xor_si128(places(eight(positions, from), first), rows_from(from))) };
    }
    all_set(unsafe { _mm_cmpeq_epi16(unlike, lanes(0)) })
}

impl Notes {
    /// Notes of no rows.
    pub fn new() -> Notes {
        let lower = [0; CAPACITY + BLOCK];
        Notes { live: [0; BLOCKS], lower, highest: -1, named: Places::new(), ended: Places::new() }
    }

    /// The live rows of a block, as the bits of a number.
    #[inline(always)]
    pub fn live(&self, block: usize) -> u32 {
        debug_assert!(block < BLOCKS);
        unsafe { *self.live.get_unchecked(block) }
    }

    /// The place that the lower end of the row at a place names.
    #[inline(always)]
    pub fn lower(&self, place: usize) -> i16 {
        debug_assert!(place < CAPACITY);
        unsafe { *self.lower.get_unchecked(place) }
    }

    /// Whether some lower end names a row.
    pub fn any_lower(&self) -> bool {
        self.highest >= 0
    }

    /// The first places of the blocks that have a lower end at place 0 or at the pair's start.
    pub fn named(&self) -> &[u32] {
        self.named.all()
    }

    /// The first places of the blocks that have an upper end at the pair's new end.
    pub fn ended(&self) -> &[u32] {
        self.ended.all()
    }

    /// Calls back with each of some places, within a block from one on, whose lower end names a place, rising.
    #[inline(always)]
    pub fn each_lower(&self, from: usize, end: usize, named: i16, mut call: impl FnMut(usize)) {
        let named = lanes(named);
        let eight = |at: usize| unsafe { _mm_cmpeq_epi16(_mm_loadu_si128(self.lower.as_ptr().add(at).cast()), named) };
        let bits = flagged_words(from, eight);
        if bits != 0 && from < end {
            each_bit(before(bits, from, end), |i| call(from + i));
        }
    }

    /// The same within a range of places.
    #[inline(always)]
    pub fn each_lower_of(&self, places: Range<usize>, named: i16, mut call: impl FnMut(usize)) {
        for from in places.clone().step_by(BLOCK) {
            self.each_lower(from, places.end, named, &mut call);
        }
    }

    /// Judges and notes some rows, of which so many are to be live; whether 12 holds of them.
    pub fn torn(&mut self, tables: &Tables, live: u32, by: &Judged) -> bool {
        self.named.clear();
        self.ended.clear();
        let whole = by.held / BLOCK * BLOCK;
        let fit = in_order(&tables.positions, whole, by) && self.lower_fit(&tables.lower_ends, whole, by);
        let counted = self.count_live(&tables.upper_ends, whole, by);
        let few = self.count_few(tables, whole..by.held, by);
        !fit || counted.zip(few).map_or(true, |(counted, few)| counted + few != live)
    }

    /// Notes the lower ends of some rows, whole blocks of them; whether they are below their positions.
    fn lower_fit(&mut self, lower_ends: &[u32], rows: usize, by: &Judged) -> bool {
        let (first, start, zero) = (unsafe { _mm_set1_epi32(by.first as i32) }, lanes(by.start), lanes(0));
        let (mut large, mut ahead, mut highest) = (zero, lanes(-1), lanes(-1));
        for block in (0..rows).step_by(BLOCK) {
            let mut noted = zero;
            for from in (block..block + BLOCK).step_by(EIGHT) {
                unsafe {
                    let cells = eight(lower_ends, from);
                    large = here(_mm_or_si128(_mm_or_si128(large, cells.0), cells.1));
                    let lower = places(cells, first);
                    _mm_storeu_si128(self.lower.as_mut_ptr().add(from).cast(), lower);
                    highest = here(_mm_max_epi16(highest, lower));
                    let named = here(_mm_or_si128(noted, _mm_cmpeq_epi16(lower, zero)));
                    noted = here(_mm_or_si128(named, _mm_cmpeq_epi16(lower, start)));
                    ahead = here(_mm_max_epi16(ahead, _mm_subs_epi16(lower, rows_from(from))));
                }
            }
            if unsafe { _mm_movemask_epi8(noted) } != 0 {
                self.named.push(block);
            }
        }
        self.highest = words(highest).into_iter().fold(-1, i16::max);
        all_set(ahead) && unsafe { _mm_movemask_ps(_mm_castsi128_ps(large)) } == 0
    }

    /// Notes the live ones of some rows, whole blocks of them: how many they are; none if another's upper end is not above its position, or
    /// above the newest.
    fn count_live(&mut self, upper_ends: &[u32], rows: usize, by: &Judged) -> Option<u32> {
        let (first, end, zero) = (unsafe { _mm_set1_epi32(by.first as i32) }, lanes(by.end), lanes(0));
        let (mut fit, mut count, mut highest) = (lanes(-1), zero, lanes(-1));
        for block in (0..rows).step_by(BLOCK) {
            let (mut noted, mut bits) = (zero, 0);
            for from in (block..block + BLOCK).step_by(2 * EIGHT) {
                let mut one = |from: usize| unsafe {
                    let cells = eight(upper_ends, from);
                    let live = _mm_cmpeq_epi16(_mm_packs_epi32(cells.0, cells.1), zero);
                    let upper = places(cells, first);
                    noted = here(_mm_or_si128(noted, _mm_cmpeq_epi16(upper, end)));
                    highest = here(_mm_max_epi16(highest, upper));
                    fit = here(_mm_and_si128(fit, _mm_or_si128(live, _mm_cmpgt_epi16(upper, rows_from(from)))));
                    count = here(_mm_sub_epi16(count, live));
                    live
                };
                let live = (one(from), one(from + EIGHT));
                bits |= unsafe { _mm_movemask_epi8(_mm_packs_epi16(live.0, live.1)) as u32 } << (from - block);
            }
            self.live[block / BLOCK] = bits;
            if unsafe { _mm_movemask_epi8(noted) } != 0 {
                self.ended.push(block);
            }
        }
        let counts: i16 = words(count).iter().sum();
        let last = words(highest).into_iter().fold(-1, i16::max);
        (all_set(fit) && last < by.held as i16).then_some(counts as u32)
    }

    /// Judges and notes fewer rows than a block has: how many of them are live, or none if 12 holds of them. Their block is always looked
    /// at again.
    fn count_few(&mut self, tables: &Tables, rows: Range<usize>, by: &Judged) -> Option<u32> {
        let (mut live, block) = (0, rows.start);
        for place in rows {
            let position = by.first + place as u32;
            let (lower, upper) = (tables.lower_ends[place], tables.upper_ends[place]);
            let open = upper == 0 || position < upper && upper < by.first + by.held as u32;
            if tables.positions[place] != position || lower >= position || !open {
                return None;
            }
            live |= u32::from(upper == 0) << (place - block);
            self.lower[place] = (lower as i32 - by.first as i32).max(-1) as i16;
            self.highest = self.highest.max(self.lower[place]);
            self.live[block / BLOCK] = live;
        }
        if block < by.held {
            self.named.push(block);
            self.ended.push(block);
        }
        Some(live.count_ones())
    }
}
