//! Print gathered in large pieces: lines of a letter, numbers and changes.

use std::arch::x86_64::*;
use std::io::{self, Write};

/// The most bytes that one frame prints: a line of a quote, 1,025 changes of each of eight watches, and 1,024 of the pair.
const LONGEST: usize = 256 << 10;
/// So many bytes are gathered before they are written out.
const PIECE: usize = 64 << 10;

/// The digits of a number below 100,000,000, and how many: eight at once in the bytes of a word, zeros before the first one shifted out.
fn digits(number: u32) -> (u64, usize) {
    let fours = u64::from(number / 10_000) | u64::from(number % 10_000) << 32;
    let hundreds = fours * 10_486 >> 20 & 0x7f_0000_007f;
    let twos = hundreds | (fours - 100 * hundreds) << 16;
    let tens = twos * 103 >> 10 & 0x000f_000f_000f_000f;
    let digits = tens | (twos - 10 * tens) << 8;
    let zeros = (digits | 1 << 56).trailing_zeros() / 8;
    ((digits | 0x3030_3030_3030_3030) >> (8 * zeros), 8 - zeros as usize)
}

/// The digits of a number with a line's end behind them, at most nine bytes; the last of sixteen says how many.
#[derive(Clone, Copy)]
#[repr(C)]
pub union Text {
    vector: __m128i,
    bytes: [u8; 16],
}

impl Text {
    /// The text of a number below 100,000,000.
    pub fn new(number: u32) -> Text {
        let (digits, count) = digits(number);
        let end = u64::from(b'\n');
        let (low, high) = if count < 8 { (digits | end << (8 * count), 0) } else { (digits, end) };
        let length = (count as u64 + 1) << 56;
        Text { vector: unsafe { _mm_set_epi64x((high | length) as i64, low as i64) } }
    }

    /// How many bytes it has, the line's end among them.
    #[inline(always)]
    fn length(&self) -> usize {
        usize::from(unsafe { self.bytes[15] })
    }
}

/// Numbers that rise by one, as texts: the next one has a last digit more by one, or is made anew.
pub struct Counting {
    text: Text,
    one: __m128i,
}

impl Counting {
    /// From a number on.
    #[inline(never)]
    pub fn from(number: u32) -> Counting {
        let text = Text::new(number);
        Counting { text, one: unsafe { _mm_set_epi64x(0, 1 << (8 * (text.length() - 2))) } }
    }

    /// The text of a number, which is next.
    #[inline(always)]
    pub fn next(&mut self, number: u32) -> Text {
        if number % 10 == 0 {
            *self = Counting::from(number);
        } else {
            self.text.vector = unsafe { _mm_add_epi64(self.text.vector, self.one) };
        }
        self.text
    }
}

/// What stands before the position on the lines of a watch: a sign, the desk, n and a space; at most eight bytes.
#[derive(Clone, Copy)]
pub struct Prefix {
    bytes: u64,
    length: usize,
}

impl Prefix {
    /// The prefix with some bytes.
    pub fn new(text: &str) -> Prefix {
        let mut bytes = [0; 8];
        bytes[..text.len()].copy_from_slice(text.as_bytes());
        Prefix { bytes: u64::from_le_bytes(bytes), length: text.len() }
    }
}

/// The bytes gathered, and where the next one goes.
pub struct Print {
    bytes: Vec<u8>,
    at: usize,
}

impl Print {
    /// An empty print.
    pub fn new() -> Print {
        Print { bytes: vec![0; LONGEST + PIECE], at: 0 }
    }

    /// A pen that writes on behind what is gathered; where it ends has to be told.
    #[inline(always)]
    pub fn pen(&mut self) -> Pen {
        Pen { to: unsafe { self.bytes.as_mut_ptr().add(self.at) } }
    }

    /// Takes over what a pen has written.
    #[inline(always)]
    pub fn written(&mut self, pen: Pen) {
        self.at = pen.to as usize - self.bytes.as_ptr() as usize;
        debug_assert!(self.at <= self.bytes.len());
    }

    /// A line of some words.
    #[cold]
    pub fn line(&mut self, words: &str) {
        self.bytes[self.at..self.at + words.len()].copy_from_slice(words.as_bytes());
        self.bytes[self.at + words.len()] = b'\n';
        self.at += words.len() + 1;
    }

    /// The line of a refusal.
    #[cold]
    pub fn refuse(&mut self, number: u32) {
        self.line(&format!("R {number}"));
    }

    /// Writes out what is gathered if the next frame may not fit.
    #[inline(always)]
    pub fn make_room(&mut self, to: &mut impl Write) -> io::Result<()> {
        if self.at >= PIECE {
            self.flush(to)?;
        }
        Ok(())
    }

    /// Writes out what is gathered.
    #[cold]
    pub fn flush(&mut self, to: &mut impl Write) -> io::Result<()> {
        to.write_all(&self.bytes[..self.at])?;
        self.at = 0;
        Ok(())
    }
}

/// Where the next byte goes. What one frame prints fits behind what is gathered, so that nothing is checked here.
pub struct Pen {
    to: *mut u8,
}

impl Pen {
    /// Lays down a text, and steps over so many bytes of it; the bytes behind them are overwritten by what comes next.
    #[inline(always)]
    fn lay(&mut self, text: &Text, length: usize) {
        unsafe {
            _mm_storeu_si128(self.to.cast(), text.vector);
            self.to = self.to.add(length);
        }
    }

    /// Lays down a prefix.
    #[inline(always)]
    fn begin(&mut self, prefix: &Prefix) {
        unsafe {
            self.to.cast::<u64>().write_unaligned(prefix.bytes);
            self.to = self.to.add(prefix.length);
        }
    }

    /// The line of a prefix and a number.
    #[inline(always)]
    pub fn line(&mut self, prefix: &Prefix, text: &Text) {
        self.begin(prefix);
        self.lay(text, text.length());
    }

    /// The line of a prefix and two numbers.
    #[inline(always)]
    pub fn long_line(&mut self, prefix: &Prefix, first: &Text, second: &Text) {
        self.begin(prefix);
        self.lay(first, first.length() - 1);
        self.byte(b' ');
        self.lay(second, second.length());
    }

    /// A space and a number.
    #[inline(always)]
    pub fn field(&mut self, text: &Text) {
        self.byte(b' ');
        self.lay(text, text.length() - 1);
    }

    /// A single byte.
    #[inline(always)]
    pub fn byte(&mut self, byte: u8) {
        unsafe {
            *self.to = byte;
            self.to = self.to.add(1);
        }
    }
}
