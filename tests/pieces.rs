//! Tapes, cut at every byte and fed to the printer in pieces of every size from 1 to 64 bytes, and tapes and pieces about
//! as long as its buffer, print what they print when they come at once; lines fed to the writer so give the same tape.
//! Lines come as soon as they are due.

mod piped;

use std::io::Read;
use std::os::fd::OwnedFd;
use std::os::unix::net::{UnixDatagram, UnixStream};
use std::process::{Command, Stdio};
use std::sync::atomic::{AtomicUsize, Ordering};
use std::time::Duration;

const THREADS: usize = 2;
/// The sizes of pieces are those up to this one.
const LARGEST: usize = 64;
/// How many bytes the programs keep at a time, and how many of them may be held: a quote and the beginning of a look.
const BUFFER: usize = 65_536;
const HELD: usize = 27;

/// What a program prints for an input that comes in exactly these pieces: each read gives one.
fn printed_from<'a>(program: &str, pieces: impl Iterator<Item = &'a [u8]>) -> Vec<u8> {
    let (ours, theirs) = UnixDatagram::pair().expect("a pair of sockets");
    let stdin = Stdio::from(OwnedFd::from(theirs));
    let mut child = Command::new(program).stdin(stdin).stdout(Stdio::piped()).spawn().expect("the program starts");
    let mut output = child.stdout.take().unwrap();
    let reader = std::thread::spawn(move || {
        let mut print = Vec::new();
        output.read_to_end(&mut print).expect("the program's output is read");
        print
    });
    // a program that stops early leaves pieces unread; an empty piece is the end of the input
    for piece in pieces.chain([&[][..]]) {
        if ours.send(piece).is_err() {
            break;
        }
    }
    let print = reader.join().unwrap();
    assert!(child.wait().expect("the program ends").success(), "{program} failed");
    print
}

/// A program, and an input that is fed to it at once and in pieces.
struct Run {
    program: String,
    name: String,
    input: Vec<u8>,
}

impl Run {
    /// Compares what the program prints of the input in pieces of each size with what it prints of it at once; how many
    /// sizes there were. Pieces as long as the input are the input at once.
    fn compare(&self, planted: bool) -> usize {
        let sizes = 1..=LARGEST.min(self.input.len().saturating_sub(1));
        let expected = printed_from(&self.program, [&self.input[..]].into_iter().filter(|input| !input.is_empty()));
        for size in sizes.clone() {
            compare(&self.program, &self.name, &self.input, size, &expected, planted);
        }
        sizes.count()
    }
}

/// The runs of a sample: a tape cut at every byte, or lines as they are.
fn runs_of(path: &str, printer: &str, writer: &str) -> Vec<Run> {
    let sample = std::fs::read(path).expect("a sample");
    if path.ends_with(".txt") {
        return vec![Run { program: writer.into(), name: path.into(), input: sample }];
    }
    let cut = |keep: usize| Run {
        program: printer.into(),
        name: format!("{path} cut at {keep}"),
        input: sample[..keep].to_vec(),
    };
    (0..=sample.len()).map(cut).collect()
}

/// Compares all runs, on all threads; how many sizes there were.
fn compare_all(runs: &[Run], planted: bool) -> usize {
    let next = AtomicUsize::new(0);
    let work = || {
        let mut sizes = 0;
        while let Some(run) = runs.get(next.fetch_add(1, Ordering::Relaxed)) {
            sizes += run.compare(planted);
        }
        sizes
    };
    std::thread::scope(|scope| {
        let workers: Vec<_> = (0..THREADS).map(|_| scope.spawn(work)).collect();
        workers.into_iter().map(|worker| worker.join().expect("a thread of the comparison ends")).sum()
    })
}

/// Compares what a program prints of an input in pieces of a size with what it prints of it at once; a planted bug
/// loses the last byte of each piece.
fn compare(program: &str, name: &str, input: &[u8], size: usize, expected: &[u8], planted: bool) {
    let lost = usize::from(planted && size > 1);
    let print =
        printed_from(program, input.chunks(size).map(|piece| &piece[..piece.len() - lost.min(piece.len() - 1)]));
    if print != expected {
        eprintln!("the prints differ: {program}, {name} in pieces of {size}");
        std::process::exit(1);
    }
}

/// Frames of quotes of two columns behind an opening and a watch, so many bytes at least.
fn long_tape(bytes: usize) -> Vec<u8> {
    let mut tape = vec![48, 2, 5, 0, 0, 17, 3, 0];
    let mut column: u32 = 1;
    while tape.len() < bytes {
        tape.push(2);
        for _ in 0..2 {
            column = column.wrapping_mul(1_103_515_245).wrapping_add(12_345);
            tape.extend((column >> 16).to_le_bytes());
        }
        if column % 7 == 0 {
            tape.extend([16, 4, 0]);
        }
    }
    tape
}

/// Pieces of a tape, each with the lines that are due before the next comes: a quote's with the first byte behind it, if
/// that is a look's kind with the look's last, or at the end of the input, which is the empty piece.
const DUE: [(&[u8], &str); 11] = [
    (&[48, 2, 5, 0, 0], "O 2 5 0\n"),
    (&[2, 5, 0, 0, 0, 5, 0, 0, 0], ""),
    (&[2], "Q 1 1\n"),
    (&[3, 0, 0, 0, 8, 0, 0, 0], ""),
    (&[16], ""),
    (&[2], ""),
    (&[0], "Q 2 2\nL 2 1 2\n"),
    (&[17, 2, 0], "W 2\n+ 2 1\n+ 2 2\n"),
    (&[2, 4, 0, 0, 0, 4, 0, 0, 0, 23], "Q 3 2\n- 2 1\n+ 2 3\n"),
    (&[1, 0, 2, 0, 2, 9, 0, 0, 0, 9, 0, 0, 0], "P 1 2 2 3\n"),
    (&[], "Q 4 3\n- 2 2\n"),
];

/// Asks that the lines of each piece come before the next piece is sent, and no more of them.
fn due(printer: &str) {
    let (ours, theirs) = UnixDatagram::pair().expect("a pair of sockets");
    let (mut output, stdout) = UnixStream::pair().expect("a pair of sockets");
    let mut child = Command::new(printer)
        .stdin(Stdio::from(OwnedFd::from(theirs)))
        .stdout(Stdio::from(OwnedFd::from(stdout)))
        .spawn()
        .expect("the printer starts");
    for (piece, lines) in DUE {
        ours.send(piece).expect("the printer reads on");
        let mut print = vec![0; lines.len()];
        output.set_read_timeout(Some(Duration::from_secs(20))).unwrap();
        output.read_exact(&mut print).unwrap_or_else(|_| panic!("{piece:?} brings fewer bytes than {lines:?}"));
        assert_eq!(String::from_utf8_lossy(&print), lines, "of {piece:?}");
        output.set_read_timeout(Some(Duration::from_millis(20))).unwrap();
        assert!(!matches!(output.read(&mut [0]), Ok(1)), "{piece:?} brings more than {lines:?}");
    }
    assert!(child.wait().expect("the printer ends").success(), "{printer} failed");
}

fn main() {
    let mut words = std::env::args().skip(1).peekable();
    let planted = words.next_if(|word| word == "--plant").is_some();
    let printer = words.next().expect("the printer");
    let writer = words.next().expect("the writer");
    due(&printer);
    let samples: Vec<Run> = words.flat_map(|path| runs_of(&path, &printer, &writer)).collect();
    let mut runs = 1 + compare_all(&samples, planted);
    // the pieces fill the buffer, to a byte more or less, whatever is kept of a frame
    let tape = long_tape(3 * BUFFER);
    let (whole, _) = piped::printed(&printer, &tape);
    for size in BUFFER - HELD - 8..=BUFFER - HELD {
        compare(&printer, "a long tape", &tape, size, &whole, planted);
        runs += 1;
    }
    // the tape is as long as the buffer, to some bytes more or less, and comes as the pipe gives it; it may be cut
    for length in BUFFER - 40..=BUFFER + 40 {
        let (print, _) = piped::printed(&printer, &tape[..length]);
        let expected = printed_from(&printer, tape[..length].chunks(1_000));
        assert!(print == expected, "a tape of {length} bytes prints something else in pieces");
        runs += 1;
    }
    println!("pieces: {runs} runs print the same, each line when it is due");
}
