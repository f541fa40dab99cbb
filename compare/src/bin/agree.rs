//! Compares the C entry under test with the plain version over many pseudo-random calls. The rules fix every answer and
//! every byte of an image, so each call has to get the same answer and to leave the same bytes on both sides. What an
//! accepted call leaves is held besides against plans that are found by a search, apart from both.
//!
//! The first argument is the seed of the generator, the second one the number of rounds. A round is either a few
//! unlike calls on one image, good or bad, or a sequence of calls that use up the cells of one image and wear out its
//! pages. The first disagreement ends the run with status 1 and is printed with its arguments and its image.
//!
//! If a third argument `trace` is given, each call is printed to standard error before it is made. So the last line
//! shows the call in which a side crashed or did not come back.

use std::collections::BTreeMap;
use std::fmt::{self, Write};
use std::hint::black_box;
use std::ops::Range;
use std::process::ExitCode;
use std::time::Instant;

use compare::code::{order, CellSet, Code};
use compare::sample::{erased_image, set_some_cells, Random, Shape};
use compare::{foreign, plain};

const SEED: u64 = 1982;
const ROUNDS: u64 = 100_000;

/// Answers from here on are refusals.
const REFUSED: u32 = 10_000;

fn main() -> ExitCode {
    let words: Vec<String> = std::env::args().skip(1).collect();
    let number = |index: usize| words.get(index).map(|word| word.parse().expect("seed and rounds are whole numbers"));
    let seed = number(0).unwrap_or(SEED);
    let rounds = number(1).unwrap_or(ROUNDS);
    let trace = words.get(2).is_some_and(|word| word == "trace");
    let start = Instant::now();
    let mut run = Run { random: Random::new(seed), counts: Counts::default(), image: Vec::new(), trace };
    for round in 0..rounds {
        if let Err(disagreement) = run.round() {
            println!("disagreement in round {round} with seed {seed}:\n{disagreement}");
            return ExitCode::FAILURE;
        }
    }
    println!("seed {seed}, {rounds} rounds, {:.1} s\n{}", start.elapsed().as_secs_f64(), run.counts);
    let missing = run.counts.missing();
    if !missing.is_empty() {
        println!("never occurred: {}", missing.join(", "));
        return ExitCode::FAILURE;
    }
    println!("no disagreement");
    ExitCode::SUCCESS
}

#[derive(Clone, Copy, Debug, PartialEq, Eq, PartialOrd, Ord)]
enum Action {
    Get,
    Put,
    Renew,
}

const ACTIONS: [Action; 3] = [Action::Get, Action::Put, Action::Renew];

#[derive(Clone, Copy, Debug)]
struct Call {
    action: Action,
    code: Code,
    record: u32,
    /// Not used by a get.
    value: u32,
}

impl Call {
    fn by_plain(&self, image: &mut [u8]) -> u32 {
        let Call { action, code: Code { kind, parameter, n }, record, value } = *self;
        match action {
            Action::Get => plain::get(kind, parameter, n, record, image),
            Action::Put => plain::put(kind, parameter, n, record, value, image),
            Action::Renew => plain::renew(kind, parameter, n, record, value, image),
        }
    }

    fn by_foreign(&self, image: &mut [u8]) -> u32 {
        let Call { action, code: Code { kind, parameter, n }, record, value } = *self;
        match action {
            Action::Get => foreign::get(kind, parameter, n, record, image),
            Action::Put => foreign::put(kind, parameter, n, record, value, image),
            Action::Renew => foreign::renew(kind, parameter, n, record, value, image),
        }
    }
}

/// The state of a run: each call starts from the image that the call before left behind.
struct Run {
    random: Random,
    counts: Counts,
    image: Vec<u8>,
    trace: bool,
}

impl Run {
    fn round(&mut self) -> Result<(), String> {
        match self.random.between(1, 24) {
            1 => self.wearing_sequence(),
            2..=3 => {
                self.image = any_image(&mut self.random);
                let code = good_code(Shape::of(&self.image).width, &mut self.random);
                self.mixed_sequence(code)
            }
            4 => {
                let code = scarce_code(&mut self.random);
                self.image = scarce_image(code, &mut self.random);
                self.mixed_sequence(code)
            }
            5..=12 => {
                self.image = any_image(&mut self.random);
                spoil(&mut self.image, &mut self.random);
                self.unlike_calls()
            }
            _ => {
                self.image = any_image(&mut self.random);
                self.unlike_calls()
            }
        }
    }

    /// A few calls, each with a code of its own.
    fn unlike_calls(&mut self) -> Result<(), String> {
        for _ in 0..8 {
            let shape = plain::check(&self.image).map_or(Shape { pages: 1, width: 8 }, |_| Shape::of(&self.image));
            let code = any_code(shape.width, &mut self.random);
            let call = any_call(code, shape, &mut self.random);
            self.compare(&call)?;
        }
        Ok(())
    }

    /// Calls of all kinds with one code, mostly on a few records.
    fn mixed_sequence(&mut self, code: Code) -> Result<(), String> {
        let shape = Shape::of(&self.image);
        for _ in 0..self.random.between(10, 200) {
            let call = any_call(code, shape, &mut self.random);
            self.compare(&call)?;
        }
        Ok(())
    }

    /// Puts on a small image that is close to its end of life, with a renewal when a record is full, until a renewal
    /// is refused because the page is worn out.
    fn wearing_sequence(&mut self) -> Result<(), String> {
        let random = &mut self.random;
        let wears: Vec<u32> = (0..random.between(1, 3)).map(|_| random.between(9_980, 10_000)).collect();
        self.image = erased_image(&wears, any_width(random).min(260));
        let shape = Shape::of(&self.image);
        let code = good_code(shape.width, random);
        let mut left = 2_000;
        let mut worn_out = 0;
        while left > 0 && worn_out < 4 {
            left -= 1;
            let record = any_record(code, shape, &mut self.random);
            let value = any_value(code, &mut self.random);
            let put = Call { action: Action::Put, code, record, value };
            if self.compare(&put)? == plain::Fault::Full as u32 + REFUSED {
                let answer = self.compare(&Call { action: Action::Renew, ..put })?;
                worn_out += u32::from(answer == plain::Fault::WornOut as u32 + REFUSED);
            }
            self.compare(&Call { action: Action::Get, ..put })?;
        }
        Ok(())
    }

    /// Makes one call on both sides, compares them and goes on from the image that they leave.
    fn compare(&mut self, call: &Call) -> Result<u32, String> {
        if self.trace {
            eprintln!("{call:?} on {}", hex(&self.image));
        }
        let mut by_plain = self.image.clone();
        let mut by_foreign = Fenced::around(&self.image, &mut self.random);
        let trial = Trial {
            call: *call,
            plain_answer: call.by_plain(&mut by_plain),
            foreign_answer: call.by_foreign(black_box(by_foreign.image())),
            before: &self.image,
            plain_after: &by_plain,
            foreign_after: black_box(&mut by_foreign).image(),
        };
        trial.judge().map_err(|reason| format!("{reason}\n{trial}"))?;
        let answer = trial.plain_answer;
        if !by_foreign.is_whole() {
            return Err(format!("bytes outside the image were written\n{call:?}\nimage {}", hex(&self.image)));
        }
        self.counts.add(call.action, answer, self.image != by_plain);
        self.image = by_plain;
        Ok(answer)
    }
}

/// A copy of an image with other bytes before and after it, so that a write outside the image is seen.
struct Fenced {
    bytes: Vec<u8>,
    fence: [u8; FENCE],
    start: usize,
    end: usize,
}

const FENCE: usize = 32;

impl Fenced {
    /// The image starts at any of 16 alignments.
    fn around(image: &[u8], random: &mut Random) -> Self {
        let mut fence = [0; FENCE];
        for bytes in fence.chunks_exact_mut(8) {
            bytes.copy_from_slice(&random.word().to_le_bytes());
        }
        let start = random.between(16, 31) as usize;
        let end = start + image.len();
        let bytes = [&fence[..start], image, &fence].concat();
        Fenced { bytes, fence, start, end }
    }

    fn image(&mut self) -> &mut [u8] {
        &mut self.bytes[self.start..self.end]
    }

    fn is_whole(&self) -> bool {
        self.bytes[..self.start] == self.fence[..self.start] && self.bytes[self.end..] == self.fence
    }
}

/// One call on both sides, each from the same image.
struct Trial<'a> {
    call: Call,
    plain_answer: u32,
    foreign_answer: u32,
    before: &'a [u8],
    plain_after: &'a [u8],
    foreign_after: &'a [u8],
}

impl Trial<'_> {
    /// Whether both sides gave the same answer and left the same bytes, and whether these are as the rules ask, since
    /// both sides might be wrong alike. A refused call and a get alter nothing, and a get answers the value. An
    /// accepted put sets the plan in its record. An accepted renewal erases the page, which wears it by one, and sets
    /// the plan in each record of the page. Either alters nothing else, answers how many cells it set, and leaves a
    /// good image. Whether the right calls are refused, and by the right number, is not looked into.
    fn judge(&self) -> Result<(), &'static str> {
        require(self.plain_answer == self.foreign_answer, "the answers differ")?;
        require(self.plain_after == self.foreign_after, "the images differ")?;
        let Call { action, code, record, .. } = self.call;
        if self.plain_answer >= REFUSED {
            return require(self.plain_after == self.before, "a refused call altered the image");
        }
        match action {
            Action::Get => {
                require(self.plain_after == self.before, "a get altered the image")?;
                require(self.plain_answer == self.value_before(record), "the answer is not the value")
            }
            Action::Put => self.judge_marks(self.before, record..record + 1),
            Action::Renew => {
                let to_page = Shape::of(self.before).records_to_page(code.n);
                let page = record / to_page;
                self.judge_marks(&erased(self.before, page as usize), page * to_page..(page + 1) * to_page)
            }
        }
    }

    /// Whether the plans of these records are what was set since the start, and nothing else was altered. The start is
    /// the image before the call or, for a renewal, the one that the erase leaves.
    fn judge_marks(&self, start: &[u8], records: Range<u32>) -> Result<(), &'static str> {
        require(plain::check(self.plain_after).is_ok(), "the image is no longer good")?;
        let marked = records.map(|record| self.judge_record(start, record)).sum::<Result<u32, _>>()?;
        require(marked == self.plain_answer, "the answer is not the number of cells set")?;
        let altered: u32 = start.iter().zip(self.plain_after).map(|(old, new)| (old ^ new).count_ones()).sum();
        require(marked == altered, "something other than unset cells of the records is altered")
    }

    /// Whether the cells set in a record since the start are the plan, as a search finds it, for the value of the call
    /// or, if the call does not name the record, for the record's value from before. Answers how many they are.
    fn judge_record(&self, start: &[u8], record: u32) -> Result<u32, &'static str> {
        let Call { code, record: named, value, .. } = self.call;
        let target = if record == named { value } else { self.value_before(record) };
        let set = self.set_cells(start, record);
        let marked = self.set_cells(self.plain_after, record) & !set;
        require(code.plan(set, target) == Some(marked), "the cells set in a record are not the plan for its value")?;
        Ok(marked.count_ones())
    }

    fn value_before(&self, record: u32) -> u32 {
        self.call.code.value(self.set_cells(self.before, record))
    }

    /// The set cells of a record in an image of the same pages and width as the one before.
    fn set_cells(&self, image: &[u8], record: u32) -> CellSet {
        let shape = Shape::of(self.before);
        let n = self.call.code.n;
        let to_page = shape.records_to_page(n);
        let (page, first) = ((record / to_page) as usize, (record % to_page * n) as usize);
        let is_set = |cell: usize| image[shape.byte_of(page, cell)] >> (cell % 8) & 1 == 0;
        (0..n as usize).filter(|cell| is_set(first + cell)).fold(0, |set, cell| set | 1 << cell)
    }
}

/// The image that the erase of a page leaves.
fn erased(image: &[u8], page: usize) -> Vec<u8> {
    let mut image = image.to_vec();
    let wear: &mut [u8; 4] = image[1 + 4 * page..].first_chunk_mut().expect("a wear count has four bytes");
    *wear = (u32::from_be_bytes(*wear) + 1).to_be_bytes();
    let shape = Shape::of(&image);
    image[shape.page_start(page)..shape.page_start(page + 1)].fill(0xFF);
    image
}

impl fmt::Display for Trial<'_> {
    fn fmt(&self, f: &mut fmt::Formatter) -> fmt::Result {
        writeln!(f, "{:?}", self.call)?;
        writeln!(f, "answers: plain {}, C entry {}", self.plain_answer, self.foreign_answer)?;
        writeln!(f, "image before: {}", hex(self.before))?;
        writeln!(f, "after, plain: {}", hex(self.plain_after))?;
        write!(f, "after, C entry: {}", hex(self.foreign_after))
    }
}

fn require(holds: bool, otherwise: &'static str) -> Result<(), &'static str> {
    holds.then_some(()).ok_or(otherwise)
}

fn hex(bytes: &[u8]) -> String {
    bytes.iter().fold(String::new(), |mut text, byte| {
        write!(text, "{byte:02X}").expect("a string takes any text");
        text
    })
}

/// A good image, mostly a small one.
fn any_image(random: &mut Random) -> Vec<u8> {
    let pages = match random.between(1, 32) {
        1 => 64,
        2..=3 => random.between(1, 64),
        _ => random.between(1, 4),
    };
    let wears: Vec<u32> = (0..pages).map(|_| any_wear(random)).collect();
    let mut image = erased_image(&wears, any_width(random));
    let fill = random.between(0, 24);
    for page in 0..wears.len() {
        let sixteenths = match fill {
            // Each page has a fill of its own, from no cells to all of them.
            17.. => random.pick(&[0, 0, 1, 4, 8, 12, 15, 16, 16]),
            fill => fill,
        };
        set_some_cells(&mut image, page, sixteenths, random);
    }
    image
}

/// A good image whose records have cells of a few labels unset and all others set, so that plans of many cells occur.
fn scarce_image(code: Code, random: &mut Random) -> Vec<u8> {
    let wears: Vec<u32> = (0..random.between(1, 3)).map(|_| any_wear(random)).collect();
    let to_page = random.between(1, 8);
    let mut image = erased_image(&wears, (code.n * to_page + random.between(0, 9)) as u16);
    let shape = Shape::of(&image);
    for page in 0..shape.pages {
        for record in 0..to_page {
            let highest = random.between(1, 12);
            let step = random.between(1, 3);
            let is_scarce = |cell: u32| {
                let label = 1 + cell % (order(code.kind, code.parameter) - 1);
                label > highest || !label.is_multiple_of(step)
            };
            for cell in (0..code.n).filter(|&cell| is_scarce(cell)).map(|cell| (record * code.n + cell) as usize) {
                image[shape.byte_of(page, cell)] &= !(1 << (cell % 8));
            }
        }
    }
    image
}

fn any_wear(random: &mut Random) -> u32 {
    match random.between(0, 4) {
        0 => random.between(0, 10_000),
        1 => random.pick(&[0, 1, 255, 256, 9_983, 9_984]),
        2 => random.between(9_990, 10_000),
        _ => random.pick(&[9_999, 10_000]),
    }
}

fn any_width(random: &mut Random) -> u16 {
    let width = match random.between(1, 16) {
        1 => random.pick(&[1, 2, 7, 8, 9, 15, 16, 17, 62, 63, 64, 65, 126, 127, 128, 129, 255, 256, 257]),
        2 => random.pick(&[511, 512, 513, 1_007, 1_008, 1_009, 1_016, 1_022, 1_023, 1_024]),
        3 => random.between(1, 1_024),
        4..=6 => random.between(60, 200),
        _ => random.between(1, 64),
    };
    width as u16
}

/// Spoils an image in up to three ways.
fn spoil(image: &mut Vec<u8>, random: &mut Random) {
    if random.once_in(16) {
        *image = (0..random.between(0, 40)).map(|_| random.number() as u8).collect();
        if let Some(pages) = image.first_mut() {
            *pages &= 7;
        }
        return;
    }
    let shape = Shape::of(image);
    for _ in 0..random.pick(&[1, 1, 1, 2, 3]) {
        match random.between(0, 6) {
            0 => set_byte(image, 0, random.pick(&[0, 0, 65, 66, 128, 255])),
            1 => spoil_wear(image, shape, random),
            2 => spoil_width(image, shape, random),
            3 => spoil_unused_bits(image, shape, random),
            4 => image.extend((0..random.between(1, 9)).map(|_| random.pick(&[0, 0xFF]))),
            _ => truncate(image, shape, random),
        }
    }
}

/// Sets a byte if the image has it still.
fn set_byte(image: &mut [u8], at: usize, byte: u8) {
    if let Some(place) = image.get_mut(at) {
        *place = byte;
    }
}

fn spoil_wear(image: &mut [u8], shape: Shape, random: &mut Random) {
    let page = random.between(0, shape.pages as u32 - 1) as usize;
    let wear = match random.between(0, 2) {
        0 => 10_001,
        1 => random.between(10_001, u32::MAX),
        // Also counts that are low in their last bytes only, and those of the limit in the other order of bytes.
        _ => random.pick(&[0x0001_0000, 0x0100_0000, 0x8000_0000, 0x1027_0000, 0x0001_2710, u32::MAX]),
    };
    for (byte, at) in wear.to_be_bytes().into_iter().zip(1 + 4 * page..) {
        set_byte(image, at, byte);
    }
}

fn spoil_width(image: &mut [u8], shape: Shape, random: &mut Random) {
    let random_width = random.number() as u16;
    let width = random.pick(&[0, 1, 0x0100, 0x0400, 1_025, 1_032, 0x8008, u16::MAX, random_width]);
    set_byte(image, 1 + 4 * shape.pages, (width >> 8) as u8);
    set_byte(image, 2 + 4 * shape.pages, width as u8);
}

/// Makes an unused bit of some page 0, if there is one.
fn spoil_unused_bits(image: &mut [u8], shape: Shape, random: &mut Random) {
    let used = shape.width % 8;
    if used != 0 {
        let page = random.between(0, shape.pages as u32 - 1) as usize;
        let at = shape.page_start(page + 1) - 1;
        let bit = random.between(used as u32, 7);
        if let Some(place) = image.get_mut(at) {
            *place &= !(1 << bit);
        }
    }
}

/// Cuts an image off in or beside a section, or anywhere.
fn truncate(image: &mut Vec<u8>, shape: Shape, random: &mut Random) {
    let counts = 1 + 4 * shape.pages as u32;
    let length = image.len() as u32;
    let anywhere = random.between(0, length);
    let in_wears = random.between(1, counts);
    let page = random.between(0, shape.pages as u32 - 1) as usize;
    let between_pages = shape.page_start(page) as u32;
    let last = length.saturating_sub(1);
    let places = [0, 1, in_wears, counts - 1, counts, counts + 1, counts + 2, between_pages, last, anywhere];
    image.truncate(random.pick(&places) as usize);
}

/// A code whose records fit on a page of that width. Mostly every nonzero element is the label of some cell.
fn good_code(width: usize, random: &mut Random) -> Code {
    let most = width.min(63) as u32;
    let (kind, mut parameter) = good_group(random);
    while order(kind, parameter) > most + 1 && !random.once_in(4) {
        parameter = (parameter / 2).max(2 - kind);
    }
    let least = (order(kind, parameter) - 1).min(most);
    let n = match random.between(0, 7) {
        0..=2 => least,
        3 => most,
        4 => random.between(1, 8),
        5 => random.between(1, most),
        _ => random.between(least, most),
    };
    Code { kind, parameter, n: n.min(most) }
}

/// A code for records with few labels unset: for half of them the integers, where plans of many cells are more common.
fn scarce_code(random: &mut Random) -> Code {
    match random.between(0, 3) {
        0 => Code { kind: 0, parameter: random.between(2, 64), n: 63 },
        1 => Code { kind: 0, parameter: random.between(30, 64), n: random.between(8, 12) },
        _ => good_code(63, random),
    }
}

/// Kind and parameter of a usable group.
fn good_group(random: &mut Random) -> (u32, u32) {
    match random.between(0, 7) {
        0 => (0, random.pick(&[2, 3, 4, 5, 7, 8, 16, 31, 32, 63, 64])),
        1 => (0, random.between(2, 64)),
        2..=3 => (0, random.between(2, 12)),
        _ => (1, random.between(1, 6)),
    }
}

/// A code that is seldom unusable.
fn any_code(width: usize, random: &mut Random) -> Code {
    let mut code = good_code(width, random);
    if random.once_in(24) {
        code.kind = random.pick(&[2, 3, 255, 256, 257, 0x0001_0000, 0x0001_0001, 0x8000_0000, u32::MAX]);
    }
    if random.once_in(24) {
        let random_number = random.number();
        let near = [0, 1, 6, 7, 32, 63, 64, 65, 66, 128];
        let far = [256 + 3, 256 + 7, 0x0001_0007, 0x8000_0002, u32::MAX, random_number];
        code.parameter = if random.once_in(2) { random.pick(&near) } else { random.pick(&far) };
    }
    if random.once_in(16) {
        let next = width as u32 + 1;
        let small = random.between(0, 70);
        let far = random.pick(&[256 + 6, 0x0001_0001, 0x8000_0001, u32::MAX]);
        code.n = random.pick(&[0, 63, 64, 65, next, next, small, small, far]);
    }
    code
}

fn any_call(code: Code, shape: Shape, random: &mut Random) -> Call {
    let action = ACTIONS[random.pick(&[0, 1, 1, 1, 2, 2])];
    let record = any_record(code, shape, random);
    Call { action, code, record, value: any_value(code, random) }
}

/// A record, mostly one of few, at times at the edge or out of range.
fn any_record(code: Code, shape: Shape, random: &mut Random) -> u32 {
    let to_page = shape.records_to_page(code.n.clamp(1, 63));
    let records = shape.pages as u32 * to_page;
    let last = records.saturating_sub(1);
    match random.between(0, 63) {
        0 => random.pick(&[records, records, records + 1, last + 256, 0x0001_0000, u32::MAX]),
        1 => random.number(),
        2..=3 => last,
        4..=31 => random.between(0, last),
        32..=39 => to_page.saturating_sub(1).min(last),
        _ => random.between(0, last.min(2)),
    }
}

/// A value, at times at the edge or out of range.
fn any_value(code: Code, random: &mut Random) -> u32 {
    let order = order(code.kind, code.parameter).clamp(1, 256);
    match random.between(0, 63) {
        0 => random.pick(&[order, order, order + 1, 64, 65, 256, 0x0001_0000, 0x8000_0000, u32::MAX]),
        1 => random.number(),
        2..=3 => order - 1,
        4..=7 => 0,
        _ => random.between(0, order - 1),
    }
}

/// Puts are counted apart by whether they altered the image.
#[derive(Clone, Copy, PartialEq, Eq, PartialOrd, Ord)]
enum Outcome {
    Served,
    ServedUnaltered,
    Refused(u32),
}

#[derive(Default)]
struct Counts {
    calls: BTreeMap<(Outcome, Action), u64>,
    /// The most cells that one call of each action marked. For a get it is the highest value.
    most: BTreeMap<Action, u32>,
}

impl Counts {
    fn add(&mut self, action: Action, answer: u32, altered: bool) {
        let outcome = match (answer, altered) {
            (REFUSED.., _) => Outcome::Refused(answer - REFUSED),
            (_, true) => Outcome::Served,
            (_, false) => Outcome::ServedUnaltered,
        };
        *self.calls.entry((outcome, action)).or_default() += 1;
        if answer < REFUSED {
            let most = self.most.entry(action).or_default();
            *most = answer.max(*most);
        }
    }

    fn of(&self, outcome: Outcome, action: Action) -> u64 {
        self.calls.get(&(outcome, action)).copied().unwrap_or(0)
    }

    /// The outcomes that a call can have and that never occurred.
    fn missing(&self) -> Vec<String> {
        let possible = rows()
            .into_iter()
            .flat_map(|(outcome, text, actions)| actions.iter().map(move |&action| (outcome, text, action)));
        let never = possible.filter(|&(outcome, _, action)| self.of(outcome, action) == 0);
        never.map(|(_, text, action)| format!("{action:?}: {text}")).collect()
    }
}

/// Every outcome, in words, with the actions that can have it.
fn rows() -> Vec<(Outcome, &'static str, &'static [Action])> {
    use plain::Fault::*;
    let put_and_renew = &ACTIONS[1..];
    let (get_and_put, put, renew) = (&ACTIONS[..2], &ACTIONS[1..2], &ACTIONS[2..]);
    let refusals = [
        (Truncated, "image ends too early", &ACTIONS[..]),
        (PageCount, "number of pages", &ACTIONS),
        (Width, "width", &ACTIONS),
        (TrailingBytes, "bytes after the last page", &ACTIONS),
        (StrayBit, "unused bit", &ACTIONS),
        (WearCount, "wear count above the limit", &ACTIONS),
        (WornOut, "page worn out", renew),
        (UnusableGroup, "unusable group", &ACTIONS),
        (RecordSize, "cells to a record", &ACTIONS),
        (PageTooNarrow, "page narrower than a record", &ACTIONS),
        (NoRecord, "no such record", &ACTIONS),
        (NoElement, "value not below the order", put_and_renew),
        (Full, "record full", put),
        (PutServes, "put would be accepted", renew),
        (NeverReached, "value never reached", renew),
    ];
    let refused = refusals.map(|(fault, text, actions)| (Outcome::Refused(fault as u32), text, actions));
    let served = [
        (Outcome::Served, "served, image altered", put_and_renew),
        (Outcome::ServedUnaltered, "served, image not altered", get_and_put),
    ];
    served.into_iter().chain(refused).collect()
}

impl fmt::Display for Counts {
    fn fmt(&self, f: &mut fmt::Formatter) -> fmt::Result {
        writeln!(f, "{:<38} {:>11} {:>11} {:>11}", "outcome", "get", "put", "renew")?;
        for (outcome, text, _) in rows() {
            let number = match outcome {
                Outcome::Refused(number) => format!("{number}"),
                Outcome::Served | Outcome::ServedUnaltered => "-".to_string(),
            };
            write!(f, "{number:>2} {text:<35}")?;
            ACTIONS.iter().try_for_each(|&action| write!(f, " {:>11}", self.of(outcome, action)))?;
            writeln!(f)?;
        }
        write!(f, "   {:<35}", "highest answer of a served call")?;
        ACTIONS.iter().try_for_each(|action| write!(f, " {:>11}", self.most.get(action).unwrap_or(&0)))?;
        write!(f, "\ncalls: {}", self.calls.values().sum::<u64>())
    }
}
