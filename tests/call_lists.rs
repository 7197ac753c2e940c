//! Lists of calls made at random from a seed: sound books, made-up tables with any ends, torn ones, short loans,
//! outputs around the answer's length, heads of any values.

use crate::call_model::{
    settings_hold, Head, Model, Plant, CHANGE_BYTES, COLUMN_CELLS, LAST_POSITION, OUTPUT, PLACES, RECORDS,
};
use crate::random::Random;

/// Values around the edges of the fields.
const EDGES: [u32; 16] = [
    0,
    1,
    2,
    6,
    7,
    8,
    255,
    1_023,
    1_024,
    1_025,
    65_536,
    LAST_POSITION - 1,
    LAST_POSITION,
    LAST_POSITION + 1,
    u32::MAX - 1,
    u32::MAX,
];

/// Lines that cannot be taken.
pub const BAD_LINES: [&str; 47] = [
    "",
    "quoted 1",
    "open 1 2",
    "open 1 2 0 0",
    "look",
    "look 1 2",
    "past 1",
    "past 1 2 3",
    "past 1 x",
    "pair 2",
    "pair 2 3 4",
    "pair x 3",
    "unpair 1",
    "due 1",
    "preview x",
    "preview 1 4294967296",
    "previewed 1",
    "both",
    "both x 1",
    "both 1 x",
    "both 4294967296 1",
    "both 1 4294967296",
    "bothered 1 1",
    "watch x",
    "watch2",
    "watch2 x",
    "watch3 1",
    "end -1",
    "end2 1 2",
    "audit 1",
    "look 4294967296",
    "head 1 2 0 0 0 0",
    "head 1 2 0 0 0 0 0",
    "lend columns 6145",
    "lend upper 1025",
    "lend ends 1",
    "lend out 62521",
    "lend cells 62521",
    "lend watches 8",
    "lend desks 8",
    "cell watches 8 1",
    "cell desks 8 1",
    "cell desk 0 1",
    "cell cells 0 1",
    "cell lower 1024 1",
    "cell upper 1024 1",
    "cell columns 6144 0",
];

/// How the columns of a list's quotes are drawn.
#[derive(Clone, Copy)]
pub enum Values {
    /// One of so many distinct values, so that equal quotes abound where columns are few.
    Few(u64),
    /// One of so many distinct quotes, so that equal quotes abound whatever the column count.
    Repeated(u64),
    /// Any value.
    Wide,
    /// Values that rise along the list.
    Rising,
    /// Values that fall along the list.
    Falling,
    /// The two lowest and the two highest values.
    Extremes,
}

/// The words that begin the calls which write changes.
const CHANGING: [&str; 5] = ["quote", "both", "preview", "watch", "pair"];

/// The shares of the desks, as numbers of watches, that are just allowed, and some just over them.
const FULL_SHARES: [(usize, usize); 3] = [(5, 3), (4, 4), (3, 5)];
const OVER_SHARES: [(usize, usize); 7] = [(6, 0), (0, 6), (6, 2), (5, 4), (4, 5), (8, 0), (0, 8)];

/// A list being made: its lines, and the model that has played them; of its watches so many in four are desk two's.
pub struct List {
    r: Random,
    model: Model,
    pub lines: Vec<String>,
    pub d: u32,
    pub memory: u32,
    pub directions: u32,
    pub values: Values,
    leaning: u64,
    steps: u32,
}

impl List {
    /// A list that begins by lending everything and setting everything to zeros; settings in range are drawn for it.
    pub fn new(mut r: Random) -> List {
        let d = 1 + r.below(6) as u32;
        let memory = match r.below(40) {
            0 => 1_024,
            1 => 17 + r.below(48) as u32,
            2..=5 => 1,
            6..=11 => 2,
            _ => 3 + r.below(8) as u32,
        };
        let values = match r.below(10) {
            0 => Values::Wide,
            1 => Values::Rising,
            2 => Values::Falling,
            3 | 4 => Values::Extremes,
            5 | 6 => Values::Repeated(1 + r.below(6)),
            _ => Values::Few(1 + r.below(5)),
        };
        let (directions, leaning) = (r.below(1 << d) as u32, r.below(5));
        let (model, lines) = (Model::new(Plant::Nothing), Vec::new());
        let mut list = List { r, model, lines, d, memory, directions, values, leaning, steps: 0 };
        list.lend_all();
        list.say("open 6 1024 0".into());
        list.say("head 0 0 0 0 0 0 0 0".into());
        list
    }

    /// Adds a line, and has the model play it.
    pub fn say(&mut self, line: String) {
        self.model.play(&line, &mut String::new());
        self.lines.push(line);
    }

    /// A number below a bound.
    pub fn below(&mut self, bound: u64) -> u64 {
        self.r.below(bound)
    }

    /// Yes once in so many times.
    pub fn once_in(&mut self, times: u64) -> bool {
        self.r.below(times) == 0
    }

    /// One of some numbers.
    fn one_of(&mut self, numbers: &[u32]) -> u32 {
        numbers[self.r.below(numbers.len() as u64) as usize]
    }

    /// A number from one to another, both taken in.
    fn between(&mut self, least: u32, most: u32) -> u32 {
        least + self.r.below(u64::from(most - least) + 1) as u32
    }

    /// The columns of a quote. One of so many distinct quotes has a generator of its own.
    fn columns(&mut self, count: u32) -> Vec<u32> {
        if let Values::Repeated(k) = self.values {
            let mut repeated = Random::new(k, self.r.below(k));
            return (0..count).map(|_| repeated.below(k) as u32).collect();
        }
        (0..count).map(|_| self.value()).collect()
    }

    /// A value of a column.
    fn value(&mut self) -> u32 {
        match self.values {
            Values::Few(k) | Values::Repeated(k) => self.r.below(k) as u32,
            Values::Wide => self.r.next() as u32,
            Values::Rising => 3 * self.steps + self.r.below(4) as u32,
            Values::Falling => 1_000_000_000 - 3 * self.steps + self.r.below(4) as u32,
            Values::Extremes => self.one_of(&[0, 1, u32::MAX - 1, u32::MAX]),
        }
    }

    /// A window size: mostly in range, sometimes at or beyond an edge.
    pub fn window_size(&mut self) -> u32 {
        match self.r.below(16) {
            0 => 1,
            1 => self.memory,
            2 => self.memory + 1,
            3 => self.one_of(&EDGES),
            4 | 5 => self.between(1, self.memory),
            _ => self.between(1, self.memory.min(12)),
        }
    }

    /// Two window sizes: mostly in order, alike at times, at times the wrong way round, both above N, or one of them
    /// out of range.
    fn window_sizes(&mut self) -> (u32, u32) {
        let (one, other) = (self.window_size(), self.window_size());
        match self.r.below(10) {
            0 => (one, one),
            1 => (one.max(other), one.min(other)),
            2 => (0, one),
            3 => (one, self.one_of(&[0, self.memory, self.memory + 1])),
            4 => (self.memory + self.between(1, 3), self.memory + self.between(1, 3)),
            5 => (self.between(1, self.memory), self.memory),
            _ => (one.min(other), one.max(other)),
        }
    }

    /// The line of a past look.
    pub fn past(&mut self) -> String {
        let (n1, n2) = self.window_sizes();
        format!("past {n1} {n2}")
    }

    /// The line of a pair set; while one stands it is mostly ended instead.
    pub fn pair(&mut self) -> String {
        if self.has_pair() && !self.once_in(3) {
            return "unpair".into();
        }
        let (n1, n2) = self.window_sizes();
        format!("pair {n1} {n2}")
    }

    /// The line of a call on n by one of the desks.
    fn by_desk(&mut self, word: &str) -> String {
        let sign = if self.r.below(4) < self.leaning { "2" } else { "" };
        format!("{word}{sign} {}", self.window_size())
    }

    /// The line of a quote, once in 30 with a column count of its own.
    pub fn quote(&mut self) -> String {
        let count = if self.once_in(30) { self.between(0, 8) } else { self.d };
        self.steps += 1;
        self.columns(count).iter().fold("quote".into(), |line, value| format!("{line} {value}"))
    }

    /// The line of a quote and look in one.
    pub fn both(&mut self) -> String {
        let (n, quote) = (self.window_size(), self.quote());
        both_of(n, &quote)
    }

    /// The line of a quote, twice in five times with a look in one.
    pub fn quote_or_both(&mut self) -> String {
        if self.below(5) < 2 {
            return self.both();
        }
        self.quote()
    }

    /// Says a call; of a quote mostly its preview first, with as much output, and at times what the preview leaves; of a
    /// quote and look in one at times what it leaves, and once in four times the two calls behind it.
    fn make(&mut self, call: String) {
        if let Some(columns) = call.strip_prefix("quote").filter(|_| !self.once_in(3)) {
            self.say(format!("preview{columns}"));
            if self.once_in(4) && self.memory < 100 {
                self.say("show".into());
            }
        }
        self.say(call.clone());
        if let Some((n, columns)) = parts_of_both(&call) {
            if self.once_in(3) && self.memory < 100 {
                self.say("show".into());
            }
            if self.once_in(4) {
                self.say(format!("quote{columns}"));
                self.say(format!("look {n}"));
            }
        }
    }

    /// Says the preview of a quote, shows what it leaves, and says the quote.
    pub fn previewed(&mut self, columns: &str) {
        self.say(format!("preview{columns}"));
        self.say("show".into());
        self.say(format!("quote{columns}"));
    }

    /// The line of some call that can have an output.
    fn writing_call(&mut self) -> String {
        match self.r.below(11) {
            0 => format!("look {}", self.window_size()),
            1 => self.by_desk("watch"),
            2 => self.past(),
            3 => self.pair(),
            4 => "due".into(),
            5 => self.quote().replace("quote", "preview"),
            6..=8 => self.both(),
            _ => self.quote(),
        }
    }

    /// The line of some call other than an opening.
    fn any_call(&mut self) -> String {
        match self.r.below(12) {
            0 => self.by_desk("end"),
            1 => "audit".into(),
            2 => "unpair".into(),
            _ => self.writing_call(),
        }
    }

    /// Lends all of every buffer.
    fn lend_all(&mut self) {
        for name in ["positions", "lower", "upper"] {
            self.say(format!("lend {name} {PLACES}"));
        }
        self.say(format!("lend columns {COLUMN_CELLS}"));
        self.say(format!("lend out {OUTPUT}"));
        self.say(format!("lend cells {OUTPUT}"));
    }

    /// An opening with the list's settings.
    pub fn open(&mut self) {
        self.say(format!("open {} {} {}", self.d, self.memory, self.directions));
    }

    /// An opening with each setting at or around an edge of its range, or any.
    fn any_opening(&mut self) {
        let d = if self.once_in(3) { self.one_of(&EDGES) } else { self.between(0, 7) };
        let memory = if self.once_in(2) { self.one_of(&EDGES) } else { self.between(0, 12) };
        let directions = match self.r.below(4) {
            0 => self.one_of(&EDGES),
            1 => 1 << (d % 8),
            2 => (1 << (d % 8)) - 1,
            _ => 0,
        };
        self.say(format!("open {d} {memory} {directions}"));
        let head = self.model.head;
        if settings_hold(head.d, head.memory, head.directions) {
            (self.d, self.memory, self.directions) = (head.d, head.memory, head.directions);
        }
    }

    /// The head with the list's settings, these M, live and held counts, and the pair that it has.
    pub fn head(&mut self, newest: u32, live: u32, held: u32) {
        let (d, memory, directions, (n1, n2)) = (self.d, self.memory, self.directions, self.model.head.pair);
        self.say(format!("head {d} {memory} {directions} {newest} {live} {held} {n1} {n2}"));
    }

    /// The head that it was, with another pair.
    pub fn paired(&mut self, n1: u32, n2: u32) {
        let Head { d, memory, directions, newest, live, held, .. } = self.model.head;
        self.say(format!("head {d} {memory} {directions} {newest} {live} {held} {n1} {n2}"));
    }

    /// The newest position.
    pub fn newest(&self) -> u32 {
        self.model.head.newest
    }

    /// Whether a pair stands.
    pub fn has_pair(&self) -> bool {
        self.model.head.pair != (0, 0)
    }

    /// The head that it was, with as many live rows as held ones have an upper end of 0.
    fn recount(&mut self) {
        let Head { newest, held, .. } = self.model.head;
        let live = self.model.upper.iter().take(held as usize).filter(|&&upper| upper == 0).count();
        self.head(newest, live as u32, held);
    }

    /// A row at a place of the tables.
    pub fn row(&mut self, place: u32, position: u32, lower: u32, upper: u32, columns: &[u32]) {
        self.say(format!("cell positions {place} {position}"));
        self.say(format!("cell lower {place} {lower}"));
        self.say(format!("cell upper {place} {upper}"));
        for (i, value) in columns.iter().enumerate() {
            self.say(format!("cell columns {} {value}", place as usize * columns.len() + i));
        }
    }

    /// Lends a table one cell too short or just long enough for the settings, and says the call.
    fn short_loan(&mut self) {
        let (name, asked, longest) = match self.r.below(4) {
            0 => ("columns", self.memory * self.d, COLUMN_CELLS as u32),
            1 => ("positions", self.memory, PLACES as u32),
            2 => ("lower", self.memory, PLACES as u32),
            _ => ("upper", self.memory, PLACES as u32),
        };
        let length = match self.r.below(6) {
            0 => 0,
            1 | 2 => asked.min(longest),
            _ => asked.min(longest) - 1,
        };
        self.say(format!("lend {name} {length}"));
        for _ in 0..1 + self.r.below(2) {
            let call = self.any_call();
            self.make(call);
        }
        if self.once_in(4) {
            self.open();
        }
        self.say(format!("lend {name} {longest}"));
    }

    /// What a call would print, were so much output lent, and all cells of a quote and look in one.
    pub fn trial(&self, call: &str, out: usize) -> String {
        let (mut trial, mut print) = (self.model.clone(), String::new());
        (trial.lent.out, trial.lent.cells) = (out, OUTPUT);
        trial.play(call, &mut print);
        print
    }

    /// How many bytes or cells the answer of a call has, were the output long enough.
    fn answer_length(&self, call: &str) -> usize {
        outputs_of(&self.trial(call, OUTPUT)).0.len()
    }

    /// How many positions a quote and look in one writes, were both outputs long enough.
    pub fn list_length(&self, call: &str) -> usize {
        outputs_of(&self.trial(call, OUTPUT)).1.len()
    }

    /// How much output a call asks for: as much as always suffices if it writes changes, else as much as its answer has.
    pub fn asked(&self, call: &str) -> usize {
        if CHANGING.iter().any(|word| call.starts_with(word)) {
            return CHANGE_BYTES;
        }
        self.answer_length(call)
    }

    /// A call with an output that is one too short, or less at times, just long enough, or one longer.
    pub fn tight_output(&mut self) {
        let call = self.writing_call();
        let length = self.asked(&call);
        if length > 0 && !self.once_in(4) {
            let short = length - 1;
            let shorter = self.one_of(&[0, short.min(57_400) as u32, short.min(self.answer_length(&call)) as u32]);
            let less = if self.once_in(3) { shorter as usize } else { short };
            self.say(format!("lend out {less}"));
            self.make(call.clone());
        }
        let more = usize::from(self.once_in(4) && length < OUTPUT);
        self.say(format!("lend out {}", length + more));
        self.make(call);
        self.say(format!("lend out {OUTPUT}"));
    }

    /// A quote and look in one with cells one too few, or fewer at times, or about as many as n, then just enough or one
    /// more; once in four times with an output of bytes that is too short as well.
    pub fn tight_cells(&mut self) {
        let call = self.both();
        let (length, n) = (self.list_length(&call), parts_of_both(&call).map_or(0, |(n, _)| n));
        let about = n.min(OUTPUT as u32 - 1);
        let few = self.one_of(&[0, length.saturating_sub(1) as u32, about.max(1) - 1, about, about + 1]);
        let short = if self.once_in(2) { few as usize } else { length.saturating_sub(1) };
        if self.once_in(4) {
            let out = self.one_of(&[0, 57_400, CHANGE_BYTES as u32 - 1]);
            self.say(format!("lend out {out}"));
        }
        self.say(format!("lend cells {short}"));
        self.make(call.clone());
        self.say(format!("lend out {OUTPUT}"));
        let more = usize::from(self.once_in(4));
        self.say(format!("lend cells {}", length + more));
        self.make(call);
        self.say(format!("lend cells {OUTPUT}"));
    }

    /// A cell of a table or a record gets an odd value; after a call or two it is mostly put back.
    fn poke(&mut self) {
        let places = self.memory.min(PLACES as u32 - 2) + 2;
        let (name, i) = match self.r.below(6) {
            0 => ("columns", self.between(0, places * self.d - 1)),
            1 => ("positions", self.between(0, places - 1)),
            2 => ("lower", self.between(0, places - 1)),
            3 => ("upper", self.between(0, places - 1)),
            4 => ("watches", self.between(0, RECORDS as u32 - 1)),
            _ => ("desks", self.between(0, RECORDS as u32 - 1)),
        };
        let at = i as usize;
        let old = match name {
            "columns" => self.model.columns[at],
            "positions" => self.model.positions[at],
            "lower" => self.model.lower[at],
            "upper" => self.model.upper[at],
            "watches" => self.model.watches[at].n,
            _ => self.model.watches[at].desk,
        };
        let near = [old.wrapping_sub(1), old.wrapping_add(1), self.model.head.newest, 0, 1, u32::MAX];
        let value = self.one_of(&near);
        self.say(format!("cell {name} {i} {value}"));
        for _ in 0..1 + self.r.below(3) {
            let call = self.any_call();
            self.make(call);
        }
        if !self.once_in(4) {
            self.say(format!("cell {name} {i} {old}"));
        }
    }

    /// Shows tables and records, and sometimes some places past N too.
    fn show(&mut self) {
        self.say("show".into());
        let Head { d, memory, directions, newest, live, held, pair: (n1, n2) } = self.model.head;
        let more = self.between(1, 2);
        if self.once_in(2) && settings_hold(d, memory.saturating_add(more), 0) {
            self.say(format!("head {d} {} 0 0 0 0 0 0", memory + more));
            self.say("show".into());
            self.say(format!("head {d} {memory} {directions} {newest} {live} {held} {n1} {n2}"));
        }
    }

    /// One step of a list.
    fn step(&mut self) {
        match self.r.below(64) {
            0..=4 => self.tight_output(),
            60.. => self.tight_cells(),
            5 | 6 => self.short_loan(),
            7 => self.poke(),
            8 if self.memory < 100 || self.once_in(20) => self.show(),
            9 if self.once_in(3) => self.any_opening(),
            10 if self.once_in(3) => {
                let bad = self.r.below(BAD_LINES.len() as u64) as usize;
                self.say(BAD_LINES[bad].into());
            }
            11..=16 => {
                let watch = self.by_desk("watch");
                self.say(watch);
            }
            17 | 18 => {
                let pair = self.pair();
                self.say(pair);
            }
            19..=32 => {
                let call = self.any_call();
                self.make(call);
            }
            _ => {
                let quote = self.quote_or_both();
                self.make(quote);
            }
        }
    }

    /// Some steps, the audit, and what the tables hold after them, past N too.
    fn steps(&mut self, most: u64) {
        for _ in 0..self.r.below(most + 1) {
            self.step();
        }
        self.say("audit".into());
        if self.model.head.memory < 100 || self.once_in(10) {
            self.show();
        }
    }

    /// Odd values in some cells before anything is called, past N too.
    pub fn litter(&mut self) {
        let places = self.memory.min(30) + 3;
        for _ in 0..self.r.below(12) {
            let value = self.one_of(&EDGES);
            let line = match self.r.below(6) {
                0 => format!("cell columns {} {value}", self.between(0, places * self.d)),
                1 => format!("cell positions {} {value}", self.between(0, places)),
                2 => format!("cell lower {} {value}", self.between(0, places)),
                3 => format!("cell upper {} {value}", self.between(0, places)),
                4 => format!("cell watches {} {value}", self.between(0, 7)),
                _ => format!("cell desks {} {value}", self.between(0, 7)),
            };
            self.say(line);
        }
        if self.memory < PLACES as u32 {
            self.say(format!("cell positions {} {}", self.memory, u32::MAX));
            self.say(format!("cell lower {} 7", self.memory));
            self.say(format!("cell upper {} 8", self.memory));
            self.say(format!("cell columns {} 9", self.memory * self.d));
        }
    }

    /// A book from an opening and quotes.
    fn sound_book(&mut self) {
        self.litter();
        self.open();
        for _ in 0..self.r.below(u64::from(self.memory.min(20)) * 2 + 1) {
            let quote = self.quote_or_both();
            self.say(quote);
        }
    }

    /// A newest position: around N, around the last one, any, or now and then one beyond the last: a torn book.
    fn some_newest(&mut self) -> u32 {
        match self.r.below(16) {
            0 => 0,
            1 => LAST_POSITION + 1,
            2 | 3 => LAST_POSITION,
            4 | 5 => LAST_POSITION - self.between(1, 12),
            6 | 7 => self.between(1, LAST_POSITION),
            8 | 9 => self.memory,
            10..=12 => self.memory + self.between(1, 9),
            _ => self.between(1, self.memory),
        }
    }

    /// A lower end below a position, of a window from its start on: none, an older position, or one before the window.
    fn some_lower(&mut self, start: u32, position: u32) -> u32 {
        match self.r.below(6) {
            0 => 0,
            1 => start - 1,
            2 => self.between(0, position - 1),
            3 => position - 1,
            4 => start.min(position - 1),
            _ => self.between(start.min(position - 1), position - 1),
        }
    }

    /// An upper end of a position where so many in four are retired: none, or a younger position up to the newest.
    fn some_upper(&mut self, position: u32, newest: u32, retired: u64) -> u32 {
        if position == newest || self.r.below(4) >= retired {
            return 0;
        }
        self.between(position + 1, newest)
    }

    /// Tables whoever left them: a row for every position of the window, any lower ends below and upper ends above it.
    fn made_up_book(&mut self) {
        self.litter();
        let newest = self.some_newest();
        let start = (newest + 1).saturating_sub(self.memory).max(1);
        let retired = self.r.below(4);
        for position in start..=newest {
            let lower = self.some_lower(start, position);
            let upper = self.some_upper(position, newest, retired);
            let columns = self.columns(self.d);
            self.row(position - start, position, lower, upper, &columns);
        }
        self.head(newest, 0, newest + 1 - start);
        self.recount();
        self.made_up_pair();
        self.made_up_watches();
    }

    /// A pair that can be set, where N is at least 2, twice in three times.
    fn made_up_pair(&mut self) {
        if self.memory < 2 || self.once_in(3) {
            return;
        }
        let n1 = if self.once_in(2) { 2 } else { self.between(2, self.memory) };
        let n2 = self.between(n1, self.memory);
        self.paired(n1, n2);
    }

    /// A record with a place, n and a desk.
    pub fn record(&mut self, i: usize, n: u32, desk: u32) {
        self.say(format!("cell watches {i} {n}"));
        self.say(format!("cell desks {i} {desk}"));
    }

    /// The records of the n that each desk watches, then empties.
    pub fn records(&mut self, one: &[u32], two: &[u32]) {
        let watches = one.iter().map(|&n| (n, 1)).chain(two.iter().map(|&n| (n, 2)));
        let watches: Vec<(u32, u32)> = watches.chain([(0, 0); RECORDS]).take(RECORDS).collect();
        for (i, (n, desk)) in watches.into_iter().enumerate() {
            self.record(i, n, desk);
        }
    }

    /// Some n within N, rising, no more than so many.
    fn some_watched(&mut self, most: usize) -> Vec<u32> {
        let (odds, memory) = (1 + self.r.below(5), self.memory);
        (1..=memory).filter(|_| self.r.below(5) < odds).take(most).collect()
    }

    /// Some watches of each desk, within their shares, and empties behind them.
    fn made_up_watches(&mut self) {
        let (one, two) = FULL_SHARES[self.r.below(3) as usize];
        let (one, two) = (self.some_watched(one), self.some_watched(two));
        self.records(&one, &two);
    }

    /// Watches over the shares of the desks, as far as N has numbers for them, otherwise in order.
    fn over_shares(&mut self) {
        let (one, two) = OVER_SHARES[self.r.below(7) as usize];
        let watched = |count: usize| (1..=self.memory).take(count).collect::<Vec<_>>();
        let (one, two) = (watched(one), watched(two));
        self.records(&one, &two);
    }

    /// Tears head or rows in one of the ways that the papers name.
    fn tear_rows(&mut self) {
        let Head { newest, live, held, .. } = self.model.head;
        match self.r.below(12) {
            0 => self.head(newest, live, self.memory + 1),
            1 => self.head(newest, live, u32::MAX),
            2 => self.head(LAST_POSITION + 1, live, held),
            3 => self.head(newest.max(1), live, 0),
            4 => self.head(0, live, held.max(1)),
            5 | 6 => self.tear_positions(),
            7 => self.tear_gap(),
            8 => {
                let wrong = self.one_of(&[live.wrapping_sub(1), live + 1, u32::MAX]);
                self.head(newest, wrong, held);
            }
            9 => {
                let any = self.between(0, held.max(1) - 1);
                let more = self.between(0, 1);
                let lower = self.model.positions[any as usize].saturating_add(more);
                self.say(format!("cell lower {any} {lower}"));
            }
            _ => self.tear_upper(),
        }
    }

    /// Tears the positions: two alike or falling, one before the window, or another than M at the end.
    fn tear_positions(&mut self) {
        let Head { newest, held, .. } = self.model.head;
        let last = held.max(1) - 1;
        let start = (newest + 1).saturating_sub(self.memory).max(1);
        match self.r.below(3) {
            0 => {
                let any = self.between(0, last);
                let before = self.model.positions[any as usize];
                self.say(format!("cell positions {} {before}", (any + 1).min(last)));
                self.say(format!("cell positions {any} {}", before.saturating_add(u32::from(any == last))));
            }
            1 => self.say(format!("cell positions 0 {}", start - 1)),
            _ => {
                let wrong = if self.once_in(2) { newest + 1 } else { newest.max(1) - 1 };
                self.say(format!("cell positions {last} {wrong}"));
            }
        }
    }

    /// Tears the window by a gap: one row but the newest goes, the younger ones move up, and both counts follow.
    fn tear_gap(&mut self) {
        let Head { newest, live, held, .. } = self.model.head;
        if held < 2 || held > self.memory {
            return;
        }
        let d = self.d as usize;
        for place in self.between(0, held - 2)..held - 1 {
            let next = place as usize + 1;
            let (position, lower) = (self.model.positions[next], self.model.lower[next]);
            let columns = self.model.columns[next * d..(next + 1) * d].to_vec();
            self.row(place, position, lower, self.model.upper[next], &columns);
        }
        self.head(newest, live, held - 1);
        self.recount();
    }

    /// Tears an upper end: one that is not above its position, or one above M; the live count follows.
    fn tear_upper(&mut self) {
        let Head { newest, held, .. } = self.model.head;
        let any = self.between(0, held.max(1) - 1);
        let position = self.model.positions[any as usize];
        let upper = self.one_of(&[1, position.max(2) - 1, position, position, newest + 1, u32::MAX]);
        self.say(format!("cell upper {any} {upper}"));
        self.recount();
    }

    /// Tears the pair: one that could not be set.
    fn tear_pair(&mut self) {
        let (n, memory) = (self.between(2, self.memory + 1), self.memory);
        match self.r.below(7) {
            0 => self.paired(0, n),
            1 => self.paired(n, 0),
            2 => self.paired(1, n.min(memory)),
            3 => self.paired(n, n - 1),
            4 => self.paired(2, memory + 1),
            5 => self.paired(memory + 1, memory + 1),
            _ => {
                let (n1, n2) = (self.one_of(&EDGES), self.one_of(&EDGES));
                self.paired(n1, n2);
            }
        }
    }

    /// Tears the watches in one of the ways that the papers name.
    fn tear_watches(&mut self) {
        let (i, memory) = (self.r.below(7) as usize, self.memory);
        let (n, desk) = (self.between(1, memory), self.between(1, 2));
        let empty = self.model.watches.iter().position(|watch| watch.desk == 0).unwrap_or(7);
        let standing = self.r.below(empty as u64 + 1) as usize;
        match self.r.below(9) {
            0 => self.over_shares(),
            1 => self.records(&[n, n], &[]),
            2 => self.records(&[], &[n, n]),
            3 => self.record(empty, memory + 1, desk),
            4 => self.record(empty, 0, desk),
            5 => self.record(standing, n, 0),
            6 => {
                let odd = self.one_of(&[3, 4, 256, u32::MAX]);
                self.record(standing, n, odd);
            }
            7 => {
                self.record(i, 0, 0);
                self.record(i + 1, n, desk);
            }
            _ => self.disorder(i),
        }
    }

    /// Two records in the wrong order: desk two's before desk one's, or the higher n of a desk before the lower.
    fn disorder(&mut self, i: usize) {
        let (n, desk) = (self.between(1, self.memory), self.between(1, 2));
        if self.once_in(2) {
            self.record(i, n, 2);
            self.record(i + 1, n, 1);
        } else {
            self.record(i, n + 1, desk);
            self.record(i + 1, n, desk);
        }
    }

    /// A torn book, and every call on it, with every output, and under a short loan.
    fn torn_book(&mut self) {
        if self.once_in(2) {
            self.sound_book();
        } else {
            self.made_up_book();
        }
        match self.r.below(4) {
            0 => self.tear_watches(),
            1 => self.tear_pair(),
            _ => self.tear_rows(),
        }
        for word in ["look", "watch", "end", "watch2", "end2"] {
            let n = self.window_size();
            self.say(format!("{word} {n}"));
        }
        let (past, (n1, n2), both, quote) = (self.past(), self.window_sizes(), self.both(), self.quote());
        for call in [past, format!("pair {n1} {n2}"), "unpair".into(), "due".into(), both, quote, "audit".into()] {
            self.make(call);
        }
        self.short_loan();
        if self.memory < 100 {
            self.show();
        }
    }

    /// Heads of any values over any tables, and calls under each.
    fn any_heads(&mut self) {
        self.litter();
        for _ in 0..1 + self.r.below(6) {
            let line = (0..8).fold("head".into(), |line: String, _| format!("{line} {}", self.one_of(&EDGES)));
            self.say(line);
            for _ in 0..1 + self.r.below(4) {
                let call = self.any_call();
                self.make(call);
            }
            if self.once_in(8) {
                self.say("show".into());
            }
        }
        self.any_opening();
    }
}

/// The line of a quote and look in one, from n and the line of the quote.
pub fn both_of(n: u32, quote: &str) -> String {
    quote.replacen("quote", &format!("both {n}"), 1)
}

/// The n of a quote and look in one, and its columns with a space before each; none if a line is no such call.
pub fn parts_of_both(line: &str) -> Option<(u32, &str)> {
    let rest = line.strip_prefix("both ")?;
    let (n, columns) = rest.split_at(rest.find(' ').unwrap_or(rest.len()));
    Some((n.parse().ok()?, columns))
}

/// What a call printed of its bytes and, of a quote and look in one, of the positions behind them.
pub fn outputs_of(print: &str) -> (Vec<u32>, Vec<u32>) {
    let count = print.split(' ').nth(2).unwrap_or("0");
    let mut outputs = print.lines().filter_map(|line| line.strip_prefix("X "));
    let mut next = || outputs.next().map_or(Vec::new(), numbers_in);
    let bytes = if count == "0" { Vec::new() } else { next() };
    (bytes, next())
}

/// The numbers of a text.
fn numbers_in(text: &str) -> Vec<u32> {
    text.split(' ').map(|number| number.parse().expect("a number")).collect()
}

/// The list with an index.
pub fn random_list(seed: u64, index: u64) -> Vec<String> {
    let mut list = List::new(Random::new(seed, index));
    match list.r.below(20) {
        0..=8 => {
            list.sound_book();
            list.steps(60);
        }
        9..=14 => {
            list.made_up_book();
            list.steps(24);
        }
        15..=17 => {
            list.torn_book();
            list.steps(4);
        }
        _ => {
            list.any_heads();
            list.steps(6);
        }
    }
    list.lines
}
