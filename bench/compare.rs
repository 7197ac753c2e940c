//! A quote compared with rows, four cells at a time.

use crate::notes::Notes;
use crate::tables::{load, pack, zeros, Four, Places, Rows, BLOCK};
use std::arch::x86_64::*;
use std::ops::Range;

/// So many of the youngest rows are always compared one by one.
const FEW: usize = 4;
/// So many rows are looked at together on one side.
const SIXTEEN: usize = 16;

/// The live rows of a block, those before an end and from a start on, which is 0 or 1, as the bits of a number.
#[inline(always)]
fn live_from(rows: &Rows, from: usize, start: usize, end: usize) -> u32 {
    let left = if from < start { !1 } else { u32::MAX };
    zeros(rows.upper_ends, from) & u32::MAX >> (BLOCK - (end - from)) & left
}

/// A quote of D columns made ready for comparisons: masks and turned cells of its first four columns, and of its last four where it has
/// more. Cells turned by a mask are better where they are lower, as signed numbers.
pub struct Ready<const D: usize> {
    turn: [Four; 2],
    new: [Four; 2],
}

impl<const D: usize> Ready<D> {
    /// The first columns that a comparison looks at: four, or as many as there are.
    const LANES: i32 = (1 << if D < 4 { D } else { 4 }) - 1;
    /// Where the last four columns begin.
    const LAST: usize = if D > 4 { D - 4 } else { 0 };

    /// The quote with some columns, which may be followed by any cells, turned by some masks. One or two columns stand in a vector as
    /// often as they fit.
    pub fn new(columns: &[u32; 6], turn: &[u32; 6]) -> Ready<D> {
        let often = |four: Four| unsafe {
            match D {
                1 => _mm_shuffle_epi32(four, 0b00_00_00_00),
                2 => _mm_shuffle_epi32(four, 0b01_00_01_00),
                _ => four,
            }
        };
        unsafe {
            let turn = [often(load(turn, 0)), load(turn, Self::LAST)];
            let new = [_mm_xor_si128(often(load(columns, 0)), turn[0]), _mm_xor_si128(load(columns, Self::LAST), turn[1])];
            Ready { turn, new }
        }
    }

    /// Where the quote is better, and where it is worse, than four columns of a row, its first or its last ones.
    #[inline(always)]
    fn four(&self, cells: &[u32], at: usize, last: usize) -> (Four, Four) {
        unsafe {
            let cell = _mm_xor_si128(load(cells, at), self.turn[last]);
            (_mm_cmpgt_epi32(cell, self.new[last]), _mm_cmpgt_epi32(self.new[last], cell))
        }
    }

    /// Whether the quote is better in a column, and whether it is worse in one, than the row at a place.
    #[inline(always)]
    fn against(&self, cells: &[u32], place: usize) -> (bool, bool) {
        let any = |flags: Four| unsafe { _mm_movemask_ps(_mm_castsi128_ps(flags)) & Self::LANES != 0 };
        let first = self.four(cells, place * D, 0);
        if D <= 4 {
            return (any(first.0), any(first.1));
        }
        let last = self.four(cells, place * D + Self::LAST, 1);
        unsafe { (any(_mm_or_si128(first.0, last.0)), any(_mm_or_si128(first.1, last.1))) }
    }

    /// Two rows from one on: for each of them a lane that is set if its first columns do not show the quote better, and one that is set if
    /// they do not show it worse.
    #[inline(always)]
    fn unsettled_of_two(&self, cells: &[u32], row: usize) -> Four {
        let (a, b) = (self.four(cells, row * D, 0), self.four(cells, (row + 1) * D, 0));
        unsafe {
            let columns = _mm_set1_epi32((1u64 << (8 * D.min(4))).wrapping_sub(1) as i32);
            let flags = pack(a.0, a.1, b.0, b.1);
            _mm_cmpeq_epi32(if D < 4 { _mm_and_si128(flags, columns) } else { flags }, _mm_setzero_si128())
        }
    }

    /// The same of a block of rows, two bits of a number for each: the lower one for better, the higher one for worse.
    #[inline(always)]
    fn unsettled_of_block(&self, cells: &[u32], place: usize) -> u64 {
        let two = |row: usize| self.unsettled_of_two(cells, place + row);
        let eight = |row: usize| unsafe { u64::from(_mm_movemask_epi8(pack(two(row), two(row + 2), two(row + 4), two(row + 6))) as u32) };
        eight(0) | eight(8) << 16 | eight(16) << 32 | eight(24) << 48
    }

    /// Whether the last columns of a row show the quote worse, if that is asked, or better.
    #[inline(always)]
    fn settled_last(&self, cells: &[u32], place: usize, worse: bool) -> bool {
        let last = self.four(cells, place * D + Self::LAST, 1);
        unsafe { _mm_movemask_ps(_mm_castsi128_ps(if worse { last.1 } else { last.0 })) != 0 }
    }

    /// Whether the quote is worse in a column than the row at a place.
    #[inline(always)]
    pub fn worse(&self, cells: &[u32], place: usize) -> bool {
        let any = |flags: Four| unsafe { _mm_movemask_ps(_mm_castsi128_ps(flags)) };
        let first = any(self.four(cells, place * D, 0).1);
        first & Self::LANES != 0 || D > 4 && any(self.four(cells, place * D + Self::LAST, 1).1) != 0
    }

    /// Which of sixteen rows from one on do not show the quote worse, if that is asked, or better, in their first columns, as the bits of a
    /// number. Of one or two columns a vector holds several rows.
    #[inline(always)]
    fn unsettled_of_sixteen(&self, cells: &[u32], row: usize, worse: bool) -> u32 {
        let side = |at: usize| {
            let (better, lost) = self.four(cells, at, 0);
            if worse {
                lost
            } else {
                better
            }
        };
        let sides = |at: usize, step: usize| pack(side(at), side(at + step), side(at + 2 * step), side(at + 3 * step));
        let four = |row: usize| unsafe {
            let columns = _mm_set1_epi32((1u64 << (8 * D.min(4))).wrapping_sub(1) as i32);
            let flags = sides(row * D, D);
            _mm_cmpeq_epi32(if D < 4 { _mm_and_si128(flags, columns) } else { flags }, _mm_setzero_si128())
        };
        let eight = |row: usize| unsafe { _mm_cmpeq_epi16(sides(row * 2, 4), _mm_setzero_si128()) };
        let unsettled = unsafe {
            match D {
                1 => _mm_cmpeq_epi8(sides(row, 4), _mm_setzero_si128()),
                2 => _mm_packs_epi16(eight(row), eight(row + 8)),
                _ => pack(four(row), four(row + 4), four(row + 8), four(row + 12)),
            }
        };
        unsafe { _mm_movemask_epi8(unsettled) as u32 }
    }

    /// The place behind the youngest of some rows, live or not, that is over the quote, or 0. Sixteen are looked at at a time.
    #[inline(always)]
    pub fn youngest_over(&self, rows: &Rows, places: Range<usize>) -> usize {
        let mut end = places.end;
        while end > places.start {
            let from = end.saturating_sub(SIXTEEN);
            let mut bits = self.unsettled_of_sixteen(rows.columns, from, false) & 0xffff >> (SIXTEEN - (end - from));
            while bits != 0 {
                let place = from + 31 - bits.leading_zeros() as usize;
                bits ^= 1 << (place - from);
                if place >= places.start && self.against(rows.columns, place) == (false, true) {
                    return place + 1;
                }
            }
            end = from;
        }
        0
    }

    /// The same where most rows are live, with the live ones that the quote is over, youngest first: both sides of a block at once until a
    /// row over the quote is found, then one side.
    #[inline(never)]
    pub fn find_dense(&self, rows: &Rows, places: Range<usize>, notes: &Notes, retired: &mut Places) -> usize {
        let mut found = 0;
        for block in (0..places.end.div_ceil(BLOCK)).rev() {
            let (from, live) = (block * BLOCK, notes.live(block));
            let within = places.start.saturating_sub(from)..(places.end - from).min(BLOCK);
            if found == 0 {
                let bits = self.unsettled_of_block(rows.columns, from);
                found = self.retire_unsettled(rows, from, bits, within, live, retired);
            } else {
                let half = |i: usize| self.unsettled_of_sixteen(rows.columns, from + i, true);
                self.retire_live(rows, from, (half(0) | half(SIXTEEN) << SIXTEEN) & live & u32::MAX << within.start, retired);
            }
        }
        found
    }

    /// Notes those of some live rows, not shown worse by their first columns, that the quote is over.
    #[inline(always)]
    fn retire_live(&self, rows: &Rows, from: usize, mut bits: u32, retired: &mut Places) {
        while bits != 0 {
            let i = 31 - bits.leading_zeros();
            bits ^= 1 << i;
            let place = from + i as usize;
            if D <= 4 || !self.settled_last(rows.columns, place, true) {
                retired.push(place);
            }
        }
    }

    /// Notes the live rows of a block that the quote is over, and gives the place behind the youngest row over the quote, or 0, among the
    /// rows within it that their first columns do not settle.
    #[inline(always)]
    fn retire_unsettled(&self, rows: &Rows, from: usize, mut bits: u64, within: Range<usize>, live: u32, retired: &mut Places) -> usize {
        let mut found = 0;
        while bits != 0 {
            let i = 63 - bits.leading_zeros();
            bits ^= 1 << i;
            let (row, worse) = (i as usize / 2, i % 2 == 1);
            if D > 4 && self.settled_last(rows.columns, from + row, worse) || !within.contains(&row) {
                continue;
            }
            if worse && live >> row & 1 == 1 {
                retired.push(from + row);
            } else if !worse && found == 0 && self.worse(rows.columns, from + row) {
                found = from + row + 1;
            }
        }
        found
    }

    /// The place behind the youngest of some rows that is over the quote, or 0; notes the live rows younger than it that the quote is over,
    /// those than which it is no worse. On a book that a tape leaves the youngest row over a quote is live, and no row that the quote is
    /// over is older. Where most rows are live they are compared side by side, but for the youngest few, where the search often ends.
    #[inline(always)]
    pub fn find(&self, rows: &Rows, places: Range<usize>, live: u32, retired: &mut Places) -> usize {
        if 2 * live as usize >= places.len() {
            return self.find_side_by_side(rows, places, retired);
        }
        let (start, mut end, mut unseen) = (places.start, places.end, live);
        while end > start && unseen > 0 {
            let from = end.saturating_sub(BLOCK);
            let found = self.find_few(rows, from, live_from(rows, from, start, end), &mut unseen, retired);
            if found != 0 {
                return found;
            }
            end = from;
        }
        0
    }

    /// The same where most rows are live.
    #[inline(never)]
    fn find_side_by_side(&self, rows: &Rows, places: Range<usize>, retired: &mut Places) -> usize {
        if places.is_empty() {
            return 0;
        }
        let (start, mut end) = (places.start, places.end.saturating_sub(FEW));
        let mut found = self.find_few(rows, end, live_from(rows, end, start, places.end), &mut 0, retired);
        while end >= start + BLOCK && found == 0 {
            end -= BLOCK;
            found = self.find_unsettled(rows, end, self.unsettled_of_block(rows.columns, end), retired);
        }
        if end > start && found == 0 {
            let (before, left) = (u64::MAX >> (2 * (BLOCK - end)), !(4u64.pow(start as u32) - 1));
            found = self.find_unsettled(rows, 0, self.unsettled_of_block(rows.columns, 0) & before & left, retired);
        }
        found
    }

    /// The same among the live rows of a block, each by itself; how many rows are not seen yet is counted.
    #[inline(always)]
    fn find_few(&self, rows: &Rows, from: usize, mut bits: u32, unseen: &mut u32, retired: &mut Places) -> usize {
        while bits != 0 {
            *unseen = unseen.wrapping_sub(1);
            let i = 31 - bits.leading_zeros();
            bits &= !(1 << i);
            let place = from + i as usize;
            let (better, worse) = self.against(rows.columns, place);
            if !(better & worse) {
                if worse {
                    return place + 1;
                }
                retired.push(place);
            }
        }
        0
    }

    /// The same among the rows of a block that their first columns do not settle; those that are not live are passed over.
    #[inline(always)]
    fn find_unsettled(&self, rows: &Rows, from: usize, mut bits: u64, retired: &mut Places) -> usize {
        while bits != 0 {
            let i = 63 - bits.leading_zeros();
            let (place, worse) = (from + i as usize / 2, i % 2 == 1);
            bits ^= 1 << i;
            if D > 4 && self.settled_last(rows.columns, place, worse) || rows.upper(place) != 0 {
                continue;
            }
            if !worse {
                return place + 1;
            }
            retired.push(place);
            bits &= !(1 << (i - 1));
        }
        0
    }
}
