//! Small lists of calls that go through settings, n, pairs of n, shares of the desks, lengths of tables and untorn books
//! one by one, and bring the longest answers; and some that are worked out by hand.

use crate::call_lists::{both_of, List, Values, BAD_LINES};
use crate::call_model::{CHANGE_BYTES, OUTPUT};
use crate::random::Random;

/// What makes a list, when it is played.
pub type Maker = Box<dyn Fn() -> Vec<String> + Send + Sync>;

/// What makes a list, from a function.
fn maker(list: impl Fn() -> Vec<String> + Send + Sync + 'static) -> Maker {
    Box::new(list)
}

/// What `show` says of eight empty records.
const EMPTIES: &str = "W 0 0 0 0 0 0 0 0\nD 0 0 0 0 0 0 0 0\n";

/// A list with the settings given, after the lines that every list begins with.
fn small_list(d: u32, memory: u32, directions: u32) -> List {
    let mut list = List::new(Random::new(u64::from(d), u64::from(memory)));
    (list.d, list.memory, list.directions, list.values) = (d, memory, directions, Values::Few(3));
    list.open();
    list
}

/// Past looks at every pair of n1 and n2 from 0 to N + 2.
fn every_past(list: &mut List) {
    let most = list.memory + 2;
    for (n1, n2) in (0..=most).flat_map(|n1| (0..=most).map(move |n2| (n1, n2))) {
        list.say(format!("past {n1} {n2}"));
    }
}

/// Every pair from 0 to N + 2 set, alone and while another stands, what is due to it, and its end.
fn every_pair(list: &mut List) {
    let most = list.memory + 2;
    for (n1, n2) in (0..=most).flat_map(|n1| (0..=most).map(move |n2| (n1, n2))) {
        list.say(format!("pair {n1} {n2}"));
        if list.has_pair() {
            list.say("due".into());
            list.say(format!("pair {n2} {n1}"));
            list.say("unpair".into());
        }
    }
    list.say("unpair".into());
    list.say("due".into());
}

/// After each of some quotes every n from 0 to N + 1 is looked at, watched by each desk, and its watches ended, every past
/// list looked at, every pair set and ended, and the next quote previewed.
fn every_window(d: u32, memory: u32, directions: u32) -> Vec<String> {
    let mut list = small_list(d, memory, directions);
    for _ in 0..memory + 3 {
        for word in ["look", "watch", "watch2", "end", "end2"] {
            for n in 0..=memory + 1 {
                list.say(format!("{word} {n}"));
            }
        }
        every_past(&mut list);
        every_pair(&mut list);
        list.say("audit".into());
        list.say(format!("watch {memory}"));
        list.say("watch2 1".into());
        list.tight_output();
        let quote = list.quote();
        list.previewed(quote.trim_start_matches("quote"));
    }
    list.lines
}

/// A quote and look in one for every n from 0 to N + 1, up and down: with an output of bytes one too short, with cells one
/// too few, and with just enough, each with what it leaves; under watches and a pair.
fn every_both(d: u32, memory: u32, directions: u32) -> Vec<String> {
    let mut list = small_list(d, memory, directions);
    for call in [format!("watch {memory}"), "watch2 1".into(), format!("pair 2 {memory}")] {
        list.say(call);
    }
    for n in (0..=memory + 1).chain((0..=memory + 1).rev()) {
        let quote = list.quote();
        let call = both_of(n, &quote);
        let cells = list.list_length(&call);
        for (out, cells) in [(CHANGE_BYTES - 1, cells), (OUTPUT, cells.saturating_sub(1)), (OUTPUT, cells)] {
            list.say(format!("lend out {out}"));
            list.say(format!("lend cells {cells}"));
            list.say(call.clone());
            list.say("show".into());
        }
    }
    list.say("audit".into());
    list.lines
}

/// Watches set by turns, up to a number for each desk, and one more of each; a quote under them; and each ended, in an
/// order that differs with the numbers.
fn every_share(one: u32, two: u32) -> Vec<String> {
    let mut list = small_list(2, 12, 1);
    let n = |i: u32, count: u32| 1 + (5 * i + count) % 12;
    for i in 0..=one.max(two) {
        for (word, count) in [("watch", one), ("watch2", two)] {
            if i <= count {
                list.say(format!("{word} {}", n(i, count)));
            }
        }
        list.say("quote 3 4".into());
        list.tight_output();
        list.say("show".into());
    }
    for i in 0..12 {
        for (word, count) in [("end", one), ("end2", two)] {
            list.say(format!("{word} {}", 1 + (7 * i + count) % 12));
        }
        list.say("show".into());
        list.say("quote 4 3".into());
    }
    list.lines
}

/// So many watches of each desk poked into the records, as far as the eight hold them, and every call under them: those
/// over the shares are torn.
fn any_shares(one: u32, two: u32) -> Vec<String> {
    let mut list = small_list(1, 8, 0);
    list.say("quote 5".into());
    let (ones, twos): (Vec<u32>, Vec<u32>) = ((1..=one).collect(), (1..=two).collect());
    for call in ["look 1", "due", "watch 8", "watch2 8", "watch 1", "watch2 1", "end 1", "end2 1", "pair 2 2", "unpair"]
    {
        list.records(&ones, &twos);
        list.say(call.into());
        list.say("show".into());
    }
    for (n, quote) in [(0, "quote 4"), (8, "quote 4"), (8, "quote 5")] {
        list.records(&ones, &twos);
        list.say(both_of(n, quote));
        list.say("show".into());
    }
    list.records(&ones, &twos);
    list.previewed(" 4");
    list.say("audit".into());
    list.lines
}

/// Each table in turn lent one cell too short, then just long enough, and every call under it.
fn every_loan(d: u32, memory: u32) -> Vec<String> {
    let mut list = small_list(d, memory, 0);
    let zeros = |count: u32| " 0".repeat(count as usize);
    list.say(format!("quote{}", zeros(d)));
    for (name, asked) in [("columns", memory * d), ("positions", memory), ("lower", memory), ("upper", memory)] {
        for length in [asked - 1, asked] {
            list.say(format!("lend {name} {length}"));
            for call in ["look 1", "past 1 1", "pair 2 2", "due", "unpair", "audit"] {
                list.say(call.into());
            }
            for call in ["watch 1", "watch2 1", "end 1", "end2 1"] {
                list.say(call.into());
            }
            list.say(format!("both {}{}", memory + 1, zeros(d)));
            list.say(format!("both 1{}", zeros(d)));
            list.previewed(&zeros(d));
            list.open();
        }
    }
    list.say("show".into());
    list.lines
}

/// A pair that stands for many quotes, with one plain watch of the same n; what is due and the pair's list after each.
fn watched_pair(d: u32, memory: u32, n1: u32, n2: u32) -> Vec<String> {
    let mut list = small_list(d, memory, 1);
    list.say(format!("pair {n1} {n2}"));
    for step in 0..2 * memory + 3 {
        if step == memory {
            list.say(format!("watch {n2}"));
        }
        let quote = list.quote();
        list.say(quote);
        list.say("due".into());
        list.say(format!("past {n1} {n2}"));
        list.say("audit".into());
    }
    list.say("show".into());
    list.say("unpair".into());
    list.tight_output();
    list.open();
    list.say("due".into());
    list.lines
}

/// Every pair of a small N so watched.
fn watched_pairs() -> Vec<Maker> {
    let mut lists = Vec::new();
    for (d, memory) in [1, 2, 3].into_iter().flat_map(|d| (2..=6).map(move |memory| (d, memory))) {
        let pairs = (2..=memory).flat_map(|n1| (n1..=memory).map(move |n2| (n1, n2)));
        lists.extend(pairs.map(|(n1, n2)| maker(move || watched_pair(d, memory, n1, n2))));
    }
    lists
}

/// Every pair up to N + 2 in the head, and every call under it: those that could not be set are torn.
fn any_pairs(memory: u32) -> Vec<String> {
    let mut list = small_list(1, memory, 0);
    for value in 0..memory + 1 {
        list.say(format!("quote {value}"));
    }
    let most = memory + 2;
    for (n1, n2) in (0..=most).flat_map(|n1| (0..=most).map(move |n2| (n1, n2))) {
        for call in
            ["look 1", "past 1 1", "watch 1", "end 1", "watch2 1", "end2 1", "pair 2 2", "unpair", "due", "audit"]
        {
            list.paired(n1, n2);
            list.say(call.into());
        }
        list.paired(n1, n2);
        list.say("both 0 1".into());
        list.say("both 1 1".into());
        list.paired(n1, n2);
        list.previewed(" 1");
    }
    list.open();
    list.lines
}

/// 1,024 quotes of which none beats another, and all but the oldest are due; one more of them with a look at all; then
/// eight watches of both desks and another pair, a quote that beats them all with a look and its equal, and the list
/// before it; each call first with an output one byte or cell too short.
fn longest_answers() -> Vec<String> {
    let mut list = small_list(2, 1_024, 0);
    for value in 1..=1_024 {
        list.say(format!("quote {value} {}", 2_000 - value));
    }
    list.say("pair 1024 1024".into());
    say_tightly(&mut list, "due");
    say_with_cells(&mut list, "both 1024 1025 975");
    list.say("unpair".into());
    list.say("pair 2 1024".into());
    for (word, first) in [("watch", 1_020), ("watch2", 1_022)] {
        for n in first..=1_024 {
            say_tightly(&mut list, &format!("{word} {n}"));
        }
    }
    say_tightly(&mut list, "preview 1 1");
    say_with_cells(&mut list, "both 1024 1 1");
    for call in ["preview 1 1", "quote 1 1", "due", "past 2 1024"] {
        say_tightly(&mut list, call);
    }
    list.say("audit".into());
    list.say("show".into());
    list.lines
}

/// A call with an output one too short, and with one that is just long enough.
fn say_tightly(list: &mut List, call: &str) {
    let length = list.asked(call);
    for less in [1, 0] {
        list.say(format!("lend out {}", length - less));
        list.say(call.into());
    }
    list.say(format!("lend out {OUTPUT}"));
}

/// A quote and look in one with bytes one too few, with cells one too few, and with just enough of both.
fn say_with_cells(list: &mut List, call: &str) {
    let cells = list.list_length(call);
    for (out, cells) in [(CHANGE_BYTES - 1, cells), (CHANGE_BYTES, cells - 1), (CHANGE_BYTES, cells)] {
        list.say(format!("lend out {out}"));
        list.say(format!("lend cells {cells}"));
        list.say(call.into());
    }
    list.say(format!("lend cells {OUTPUT}"));
}

/// The marked audits of the paper: a sole row of the worst quote, of the next to the worst, and ends of two rows.
fn marked_audits() -> Vec<String> {
    let mut list = small_list(1, 2, 0);
    for value in [u32::MAX, u32::MAX - 1] {
        list.row(0, 2, 0, 0, &[value]);
        list.head(2, 1, 1);
        list.say("audit".into());
    }
    for (lower, upper) in [(0, 0), (1, 0), (2, 0), (0, 2), (1, 2)] {
        list.row(0, 1, 0, upper, &[3]);
        list.row(1, 2, lower, 0, &[5]);
        for live in 0..=2 {
            list.head(2, live, 2);
            list.say("audit".into());
        }
        list.head(2, if upper == 0 { 2 } else { 1 }, 2);
        for call in ["look 1", "look 2", "past 2 2", "past 1 2"] {
            list.say(call.into());
        }
    }
    list.lines
}

/// The ends that an untorn row can have where M is the newest position: lower and upper end.
fn ends_of(position: u32, newest: u32) -> Vec<(u32, u32)> {
    let uppers: Vec<u32> = std::iter::once(0).chain(position + 1..=newest).collect();
    (0..position).flat_map(|lower| uppers.iter().map(move |&upper| (lower, upper))).collect()
}

/// The ends that the untorn rows of a window can have, in every way.
fn every_ends(start: u32, newest: u32) -> Vec<Vec<(u32, u32)>> {
    let mut books = vec![Vec::new()];
    for ends in (start..=newest).map(|position| ends_of(position, newest)) {
        let longer = |book: &Vec<_>| ends.iter().map(|&end| [&book[..], &[end]].concat()).collect::<Vec<_>>();
        books = books.iter().flat_map(longer).collect();
    }
    books
}

/// An untorn book of one column with M and the ends of its rows given, each row beating the next quote, equal to it or
/// beaten by it, as a number to the base 3 says, under watches of both desks and a pair or none; on it two equal quotes,
/// each previewed, with what they leave, what is due, and every past list; before the first one a look in one with it,
/// refused, and behind them one with a third.
fn untorn_book(newest: u32, ends: &[(u32, u32)], values: u32, pair: (u32, u32)) -> Vec<String> {
    let mut list = small_list(1, 3, 0);
    let start = newest + 1 - ends.len() as u32;
    for (place, &(lower, upper)) in (0..).zip(ends) {
        list.row(place, start + place, lower, upper, &[values / 3u32.pow(place) % 3]);
    }
    let live = ends.iter().filter(|&&(_, upper)| upper == 0).count() as u32;
    list.head(newest, live, ends.len() as u32);
    list.paired(pair.0, pair.1);
    for call in ["watch2 3", "watch2 1", "watch 1", "watch 2", "watch 3", "audit", "due"] {
        list.say(call.into());
    }
    let n = 1 + (newest + values) % 3;
    let few = list.list_length(&format!("both {n} 1")).max(1) - 1;
    for call in [format!("lend cells {few}"), format!("both {n} 1"), "lend cells 3".into()] {
        list.say(call);
    }
    for _ in 0..2 {
        list.previewed(" 1");
        for call in ["show", "due", "past 1 1", "past 1 2", "past 1 3", "past 2 2", "past 2 3", "past 3 3"] {
            list.say(call.into());
        }
    }
    list.say(format!("both {n} 1"));
    list.say("show".into());
    list.lines
}

/// Every untorn book of one column with N 3 and M from 2 to 4, the pairs of N in turn.
fn untorn_books() -> Vec<Maker> {
    let mut lists = Vec::new();
    let mut pairs = [(2, 3), (2, 2), (3, 3), (2, 3), (0, 0)].into_iter().cycle();
    for (start, newest) in [(1, 2), (1, 3), (2, 4)] {
        for ends in every_ends(start, newest) {
            let books = (0..3u32.pow(ends.len() as u32)).zip(pairs.by_ref());
            lists.extend(books.map(|(values, pair)| {
                let ends = ends.clone();
                maker(move || untorn_book(newest, &ends, values, pair))
            }));
        }
    }
    lists
}

/// A book that no tape leaves: the youngest row that beats the next quote is a retired one, the row at a place, and
/// before it a live one or none beats it too; so many quotes on it that both age out.
fn retired_over(memory: u32, newest: u32, place: u32, live_one: Option<u32>) -> Vec<String> {
    let mut list = small_list(2, memory, 2);
    let held = memory.min(newest);
    for i in 0..held {
        let position = newest + 1 - held + i;
        let (upper, columns) = match i {
            _ if i == place => (newest, [3, 7]),
            _ if Some(i) == live_one => (0, [4, 6]),
            _ => (0, [5, 4 + i % 2]),
        };
        list.row(i, position, 0, upper, &columns);
    }
    list.head(newest, held - 1, held);
    list.say(format!("watch {memory}"));
    list.say(format!("pair 2 {memory}"));
    for i in 0..=memory {
        list.previewed(" 5 5");
        list.say("show".into());
        list.say(format!("both {} 6 6", memory - i / 2));
        list.say("due".into());
        list.say(format!("look {memory}"));
        list.say(format!("past 2 {memory}"));
    }
    list.lines
}

/// Books of that sort for small N, before and after the first row ages out.
fn retired_overs() -> Vec<Maker> {
    let mut lists = Vec::new();
    for memory in 2..=6 {
        for newest in [memory - 1, memory, memory + 3] {
            for place in 0..memory.min(newest) - 1 {
                let live_ones = std::iter::once(None).chain((0..place).map(Some));
                lists.extend(live_ones.map(|live_one| maker(move || retired_over(memory, newest, place, live_one))));
            }
        }
    }
    lists
}

/// The paper's tape of past lists as calls, and what is seen of the book that it leaves.
fn past_example() -> (Vec<String>, String) {
    let mut lines = vec!["open 2 5 0".to_string()];
    lines.extend(["5 5", "3 8", "4 4", "7 2", "4 4", "6 6", "2 9", "4 3"].map(|columns| format!("quote {columns}")));
    lines.extend(["show", "audit", "past 2 5"].map(String::from));
    let counts = ["1 1 1", "2 2 2", "3 2 3", "4 3 4", "5 3 5", "6 4 5", "7 4 5", "8 3 5"];
    let quotes: String = counts.iter().map(|counts| format!("A 0 0 2 5 0 {counts} 0 0\n")).collect();
    let tables = "C 7 2 4 4 6 6 2 9 4 3\nP 4 5 6 7 8\nE 0 0 5 0 0\nU 0 8 8 0 0\n";
    let behind = format!("{EMPTIES}V yes\nA 0 3 2 5 0 8 3 5 0 0\nX 4 5 7\n");
    (lines, format!("A 0 0 2 5 0 0 0 0 0 0\n{quotes}{tables}{behind}"))
}

/// A pair of 3 and 5 on a book of six: what each quote writes, and what is due before the first and after each.
fn due_example() -> (Vec<String>, String) {
    let mut lines: Vec<String> = ["open 2 6 0", "pair 3 5", "due"].map(String::from).to_vec();
    for columns in ["3 3", "4 4", "1 5", "2 2", "9 9", "1 1", "5 5"] {
        lines.push(format!("quote {columns}"));
        if columns == "2 2" {
            lines.extend(["lend out 3", "due", "lend out 4"].map(String::from));
        }
        lines.extend(["due", "lend out 62520"].map(String::from));
    }
    lines.extend(["unpair", "due", "unpair"].map(String::from));
    let print = "A 0 0 2 6 0 0 0 0 0 0\nA 0 0 2 6 0 0 0 0 3 5\nA 0 0 2 6 0 0 0 0 3 5\n\
                 A 0 0 2 6 0 1 1 1 3 5\nA 0 1 2 6 0 1 1 1 3 5\nX 1 2\n\
                 A 0 0 2 6 0 2 2 2 3 5\nA 0 1 2 6 0 2 2 2 3 5\nX 1 1\n\
                 A 0 5 2 6 0 3 3 3 3 5\nX 37 1 0 0 0\nA 0 1 2 6 0 3 3 3 3 5\nX 3 2\n\
                 A 0 0 2 6 0 4 2 4 3 5\nA 13 0 2 6 0 4 2 4 3 5\nA 0 2 2 6 0 4 2 4 3 5\nX 3 1 4 2\n\
                 A 0 5 2 6 0 5 3 5 3 5\nX 37 3 0 0 0\nA 0 1 2 6 0 5 3 5 3 5\nX 4 1\n\
                 A 0 10 2 6 0 6 1 6 3 5\nX 36 1 0 0 0 37 4 0 0 0\nA 0 1 2 6 0 6 1 6 3 5\nX 6 2\n\
                 A 0 0 2 6 0 7 2 6 3 5\nA 0 1 2 6 0 7 2 6 3 5\nX 6 1\n\
                 A 0 0 2 6 0 7 2 6 0 0\nA 0 0 2 6 0 7 2 6 0 0\nA 10 0 2 6 0 7 2 6 0 0\n";
    (lines, print.into())
}

/// Previews before any opening, of a quote that brings changes, of a wrong column count, and with an output one byte too
/// short and just long enough; a preview leaves the book as it was.
fn preview_example() -> (Vec<String>, String) {
    let before = ["preview 1", "open 2 5 0", "quote 5 5", "quote 3 8", "watch 2", "preview 4 4", "show", "quote 4 4"];
    let calls = ["preview 7", "lend out 62519", "preview 2 9", "lend out 62520", "preview 2 9"];
    let lines = before.iter().chain(&calls).map(|line| line.to_string()).collect();
    let print = "A 3 0 0 0 0 0 0 0 0 0\nN 0 0\n\
                 A 0 0 2 5 0 0 0 0 0 0\nA 0 0 2 5 0 1 1 1 0 0\nA 0 0 2 5 0 2 2 2 0 0\n\
                 A 0 14 2 5 0 2 2 2 0 0\nX 33 2 0 1 0 0 0 33 2 0 2 0 0 0\n\
                 A 0 14 2 5 0 2 2 2 0 0\nX 32 2 0 1 0 0 0 33 2 0 3 0 0 0\nN 2 3\n\
                 C 5 5 3 8 0 0 0 0 0 0\nP 1 2 0 0 0\nE 0 0 0 0 0\nU 0 0 0 0 0\nW 2 0 0 0 0 0 0 0\nD 1 0 0 0 0 0 0 0\n\
                 A 0 14 2 5 0 3 2 3 0 0\nX 32 2 0 1 0 0 0 33 2 0 3 0 0 0\n\
                 A 4 0 2 5 0 3 2 3 0 0\nN 2 3\nA 13 0 2 5 0 3 2 3 0 0\nN 2 3\n\
                 A 0 14 2 5 0 3 2 3 0 0\nX 32 2 0 2 0 0 0 33 2 0 4 0 0 0\nN 3 4\n";
    (lines, print.into())
}

/// The lists of 1 to 4 after the sixth quote of the paper's tape, on which the fifth renews the third.
fn marked_example() -> (Vec<String>, String) {
    let mut lines = vec!["open 2 5 0".to_string()];
    lines.extend(["5 5", "3 8", "4 4", "7 2", "4 4", "6 6"].map(|columns| format!("quote {columns}")));
    lines.extend((1..=4).map(|n| format!("look {n}")));
    let counts = ["0 0 0", "1 1 1", "2 2 2", "3 2 3", "4 3 4", "5 3 5", "6 4 5"];
    let calls: String = counts.iter().map(|counts| format!("A 0 0 2 5 0 {counts} 0 0\n")).collect();
    let lists = ["1", "1", "2", "2"].iter().zip(["6", "5", "4 5", "4 5"]);
    let looks: String = lists.map(|(count, list)| format!("A 0 {count} 2 5 0 6 4 5 0 0\nX {list}\n")).collect();
    (lines, calls + &looks)
}

/// A quote renewed; the book that it leaves, which the audit takes; the same with other ends, which it does not take; and
/// one more equal quote on such a book, where two equal rows are live.
fn renewed_example() -> (Vec<String>, String) {
    let left = ["open 1 3 0", "quote 7", "quote 7", "show", "audit", "cell lower 1 1", "audit", "cell lower 1 0"];
    let made_up =
        ["cell upper 0 0", "head 1 3 0 2 2 2 0 0", "audit", "preview 7", "quote 7", "show", "look 3", "past 2 3"];
    let lines = left.iter().chain(&made_up).map(|line| line.to_string()).collect();
    let renewed = "A 0 0 1 3 0 0 0 0 0 0\nA 0 0 1 3 0 1 1 1 0 0\nA 0 0 1 3 0 2 1 2 0 0\n\
                   C 7 7 0\nP 1 2 0\nE 0 0 0\nU 2 0 0\n";
    let again = "V yes\nV no\nV no\nA 0 0 1 3 0 2 2 2 0 0\nN 1 3\nA 0 0 1 3 0 3 1 3 0 0\n\
                 C 7 7 7\nP 1 2 3\nE 0 0 0\nU 3 3 0\n";
    let looks = "A 0 1 1 3 0 3 1 3 0 0\nX 3\nA 0 2 1 3 0 3 1 3 0 0\nX 1 2\n";
    (lines, format!("{renewed}{EMPTIES}{again}{EMPTIES}{looks}"))
}

/// Both desks on one n beside a pair: the records, the changes of a quote in their order, an ended watch, and outputs of
/// 62,519 and 62,520 bytes, for a quote that writes nothing too.
fn desks_example() -> (Vec<String>, String) {
    let opened = ["open 1 4 0", "lend out 62519", "quote 5", "lend out 62520", "quote 5"];
    let set = ["watch2 2", "watch 2", "watch2 1", "pair 2 3", "watch2 2", "quote 7", "show"];
    let calls = ["lend out 62519", "watch 3", "end2 1", "lend out 62520", "quote 6", "end 2", "show", "end 2"];
    let lines = opened.iter().chain(&set).chain(&calls).map(|line| line.to_string()).collect();
    let print = "A 0 0 1 4 0 0 0 0 0 0\nA 13 0 1 4 0 0 0 0 0 0\nA 0 0 1 4 0 1 1 1 0 0\n\
                 A 0 7 1 4 0 1 1 1 0 0\nX 35 2 0 1 0 0 0\nA 0 7 1 4 0 1 1 1 0 0\nX 33 2 0 1 0 0 0\n\
                 A 0 7 1 4 0 1 1 1 0 0\nX 35 1 0 1 0 0 0\nA 0 0 1 4 0 1 1 1 2 3\nA 8 0 1 4 0 1 1 1 2 3\n\
                 A 0 19 1 4 0 2 2 2 2 3\nX 34 1 0 1 0 0 0 35 1 0 2 0 0 0 37 1 0 0 0\n\
                 C 5 7 0 0\nP 1 2 0 0\nE 0 1 0 0\nU 0 0 0 0\nW 2 1 2 0 0 0 0 0\nD 1 2 2 0 0 0 0 0\n\
                 A 13 0 1 4 0 2 2 2 2 3\nA 0 0 1 4 0 2 2 2 2 3\n\
                 A 0 28 1 4 0 3 2 3 2 3\nX 32 2 0 1 0 0 0 33 2 0 3 0 0 0 34 2 0 1 0 0 0 35 2 0 3 0 0 0\n\
                 A 0 0 1 4 0 3 2 3 2 3\n\
                 C 5 7 6 0\nP 1 2 3 0\nE 0 1 1 0\nU 0 3 0 0\nW 2 0 0 0 0 0 0 0\nD 2 0 0 0 0 0 0 0\n\
                 A 10 0 1 4 0 3 2 3 2 3\n";
    (lines, print.into())
}

/// Quotes with a look in one: before any opening, with changes and without, and refused in every way, of which the quote's
/// 13 comes before the look's 5, and that before the look's own 13; a refused one leaves the book as it was.
fn both_example() -> (Vec<String>, String) {
    let begun = ["both 1 1", "open 2 5 0", "both 5 5 5", "watch 2", "both 1 3 8", "both 2 4", "both 9 4"];
    let bytes = ["lend out 62519", "both 0 4 4", "both 2 4 4", "lend out 62520", "both 0 4 4", "both 6 4 4"];
    let cells = ["lend cells 1", "both 6 4 4", "both 3 4 4", "show", "lend cells 2", "both 3 4 4", "show"];
    let behind = ["lend cells 0", "lend out 1", "look 1", "lend out 62520", "both 1 2 9", "quote 2 9", "look 1"];
    let lines = [&begun[..], &bytes, &cells, &behind, &["lend cells 62520"]].concat();
    let print = "A 3 0 0 0 0 0 0 0 0 0\nA 0 0 2 5 0 0 0 0 0 0\nA 0 0 2 5 0 1 1 1 0 0\nX 1\n\
                 A 0 7 2 5 0 1 1 1 0 0\nX 33 2 0 1 0 0 0\n\
                 A 0 7 2 5 0 2 2 2 0 0\nX 33 2 0 2 0 0 0\nX 2\n\
                 A 4 0 2 5 0 2 2 2 0 0\nA 4 0 2 5 0 2 2 2 0 0\n\
                 A 13 0 2 5 0 2 2 2 0 0\nA 13 0 2 5 0 2 2 2 0 0\n\
                 A 5 0 2 5 0 2 2 2 0 0\nA 5 0 2 5 0 2 2 2 0 0\n\
                 A 5 0 2 5 0 2 2 2 0 0\nA 13 0 2 5 0 2 2 2 0 0\n\
                 C 5 5 3 8 0 0 0 0 0 0\nP 1 2 0 0 0\nE 0 0 0 0 0\nU 0 0 0 0 0\nW 2 0 0 0 0 0 0 0\nD 1 0 0 0 0 0 0 0\n\
                 A 0 14 2 5 0 3 2 3 0 0\nX 32 2 0 1 0 0 0 33 2 0 3 0 0 0\nX 2 3\n\
                 C 5 5 3 8 4 4 0 0 0 0\nP 1 2 3 0 0\nE 0 0 0 0 0\nU 3 0 0 0 0\nW 2 0 0 0 0 0 0 0\nD 1 0 0 0 0 0 0 0\n\
                 A 0 1 2 5 0 3 2 3 0 0\nX 3\n\
                 A 13 0 2 5 0 3 2 3 0 0\n\
                 A 0 14 2 5 0 4 3 4 0 0\nX 32 2 0 2 0 0 0 33 2 0 4 0 0 0\nA 0 1 2 5 0 4 3 4 0 0\nX 4\n";
    (lines.into_iter().map(String::from).collect(), print.into())
}

/// Arrangements of the records, n and desk of each in turn, and the answer that desk one's end of 1 gets: 12 where they
/// are torn.
const ARRANGEMENTS: [(&[(u32, u32)], u32); 15] = [
    (&[(0, 1)], 12),
    (&[(5, 0)], 12),
    (&[(5, 3)], 12),
    (&[(0, 2), (1, 2)], 12),
    (&[(1, 2), (2, 1)], 12),
    (&[(2, 1), (2, 1)], 12),
    (&[(3, 2), (3, 2)], 12),
    (&[(2, 1), (1, 1)], 12),
    (&[(1, 1), (0, 0), (2, 1)], 12),
    (&[(1, 1), (7, 2)], 12),
    (&[(1, 1), (2, 1), (3, 1), (4, 1), (5, 1), (6, 1)], 12),
    (&[(1, 1), (1, 2), (2, 2), (3, 2), (4, 2), (5, 2), (6, 2)], 12),
    (&[(1, 1), (2, 1), (3, 1), (4, 1), (5, 1), (1, 2), (2, 2), (3, 2)], 0),
    (&[(1, 1), (2, 1), (3, 1), (4, 1), (1, 2), (2, 2), (3, 2), (4, 2)], 0),
    (&[(6, 1), (1, 2), (2, 2), (3, 2), (4, 2), (5, 2)], 10),
];

/// Each of these arrangements in the records, and that end.
fn torn_example() -> (Vec<String>, String) {
    let mut list = small_list(1, 6, 0);
    let mut print = String::new();
    list.lines = vec!["open 1 6 0".into()];
    for (watches, answer) in ARRANGEMENTS {
        list.records(&[], &[]);
        for (i, &(n, desk)) in watches.iter().enumerate() {
            list.record(i, n, desk);
        }
        list.say("end 1".into());
        print += &format!("A {answer} 0 1 6 0 0 0 0 0 0\n");
    }
    (list.lines, "A 0 0 1 6 0 0 0 0 0 0\n".to_string() + &print)
}

/// The lists that are worked out by hand, with their prints.
pub fn examples() -> Vec<(Vec<String>, String)> {
    let windows = [past_example(), due_example(), preview_example(), marked_example(), renewed_example()];
    windows.into_iter().chain([desks_example(), both_example(), torn_example()]).collect()
}

/// All small lists, and one of every sort of line that cannot be taken.
pub fn small_lists() -> Vec<Maker> {
    let mut lists = Vec::new();
    for d in 1..=6 {
        for memory in 1..=5 {
            lists.extend((0..1 << d).map(|directions| maker(move || every_window(d, memory, directions))));
            lists.push(maker(move || every_both(d, memory, (1 << d) - 1)));
            lists.push(maker(move || every_loan(d, memory)));
        }
    }
    lists.push(maker(|| every_loan(6, 1_024)));
    lists.extend((0..=6).flat_map(|one| (0..=6).map(move |two| maker(move || every_share(one, two)))));
    lists.extend((0..=8).flat_map(|one| (0..=8 - one).map(move |two| maker(move || any_shares(one, two)))));
    lists.push(maker(|| BAD_LINES.iter().map(|line| line.to_string()).collect()));
    lists.push(maker(longest_answers));
    lists.push(maker(marked_audits));
    lists.extend((0..examples().len()).map(|i| maker(move || examples().swap_remove(i).0)));
    lists.extend((1..=4).map(|memory| maker(move || any_pairs(memory))));
    lists.extend(watched_pairs());
    lists.extend(untorn_books());
    lists.extend(retired_overs());
    lists
}
