//! Times puts and gets through the C entry against the plain version, on the same inputs and in one run.
//!
//! The argument is the number of rounds. In each round every setting is timed on both sides, one right after the other,
//! and the side that goes first alternates. Times are the least of all rounds, since whatever else the machine does
//! only adds to them. The ratio is the time of the C entry divided by that of the plain version: its median over the
//! rounds and, beside it, the ratio of the least times.

use std::hint::black_box;
use std::time::Instant;

use compare::sample::{erased_image, set_some_cells, Random};
use compare::{foreign, plain};

const ROUNDS: usize = 100;

/// Unlike calls of a setting. Each put has a copy of the image to itself.
const CALLS: usize = 64;

/// How often a timing of gets goes through all calls, as a get is much shorter than a put.
const PASSES: usize = 16;

type Get = fn(u32, u32, u32, u32, &[u8]) -> u32;
type Put = fn(u32, u32, u32, u32, u32, &mut [u8]) -> u32;

struct Side {
    get: Get,
    put: Put,
}

const PLAIN: Side = Side { get: plain::get, put: plain::put };
const FOREIGN: Side = Side { get: foreign::get, put: foreign::put };

fn main() {
    let rounds = std::env::args().nth(1).map_or(ROUNDS, |word| word.parse().expect("the rounds are a whole number"));
    let codes = [Code::integers(7, 6), Code::vectors(3, 7), Code::integers(64, 63), Code::vectors(6, 63)];
    let by_n = [8, 16, 32, 63].map(|n| Code::integers(64, n));
    let by_v = [2, 8, 16, 32, 64].map(|v| Code::integers(v, 63));
    let sections = [
        ("one page of four records", codes.map(Setting::small).into()),
        ("16 pages of 1,024 cells", codes.map(Setting::large).into()),
        ("growth with n: one page of four records", by_n.map(Setting::small).into()),
        ("growth with v: one page of four records", by_v.map(Setting::small).into()),
    ];
    let mut sections: Vec<(&str, Vec<Setting>)> = sections.into();
    for round in 0..rounds.max(1) {
        for setting in sections.iter_mut().flat_map(|(_, settings)| settings) {
            setting.round(round % 2 == 0);
        }
    }
    println!("{} rounds; ratio: time of the C entry divided by that of the plain version", rounds.max(1));
    for (title, settings) in &sections {
        print_section(title, settings);
    }
}

#[derive(Clone, Copy)]
struct Code {
    kind: u32,
    parameter: u32,
    n: u32,
}

impl Code {
    fn integers(modulus: u32, n: u32) -> Self {
        Code { kind: 0, parameter: modulus, n }
    }

    fn vectors(bits: u32, n: u32) -> Self {
        Code { kind: 1, parameter: bits, n }
    }

    fn order(self) -> u32 {
        if self.kind == 0 {
            self.parameter
        } else {
            1 << self.parameter
        }
    }

    fn name(self) -> String {
        format!("{}{}", if self.kind == 0 { 'Z' } else { 'X' }, self.parameter)
    }
}

/// A code on an image, with calls that are all served.
struct Setting {
    code: Code,
    image: Vec<u8>,
    /// Record and value of each call. The value is never the one that the record holds.
    calls: Vec<(u32, u32)>,
    gets: Times,
    puts: Times,
}

impl Setting {
    fn small(code: Code) -> Self {
        Setting::over(code, erased_image(&[0], 4 * code.n as u16))
    }

    fn large(code: Code) -> Self {
        Setting::over(code, erased_image(&[0; 16], 1_024))
    }

    /// A quarter of the cells is set at the start.
    fn over(code: Code, mut image: Vec<u8>) -> Self {
        let random = &mut Random::new(1986);
        let pages = u32::from(image[0]);
        (0..pages as usize).for_each(|page| set_some_cells(&mut image, page, 4, random));
        let width = if pages == 1 { 4 * code.n } else { 1_024 };
        let records = pages * (width / code.n).min(64);
        let mut calls = Vec::with_capacity(CALLS);
        while calls.len() < CALLS {
            let (record, value) = (random.between(0, records - 1), random.between(0, code.order() - 1));
            let answer = plain::put(code.kind, code.parameter, code.n, record, value, &mut image.clone());
            if (1..=code.n).contains(&answer) {
                calls.push((record, value));
            }
        }
        Setting { code, image, calls, gets: Times::default(), puts: Times::default() }
    }

    /// Times gets and puts once on both sides.
    fn round(&mut self, plain_first: bool) {
        let gets = in_turn(plain_first, |side| self.time_gets(side));
        let puts = in_turn(plain_first, |side| self.time_puts(side));
        self.gets.add(gets);
        self.puts.add(puts);
    }

    fn time_gets(&self, side: &Side) -> Timing {
        let Code { kind, parameter, n } = self.code;
        let mut sum = 0;
        let start = Instant::now();
        for _ in 0..PASSES {
            for &(record, _) in &self.calls {
                sum += black_box((side.get)(kind, parameter, n, record, black_box(&self.image)));
            }
        }
        Timing { nanoseconds: nanoseconds_to_call(start, CALLS * PASSES), sum }
    }

    fn time_puts(&self, side: &Side) -> Timing {
        let Code { kind, parameter, n } = self.code;
        let mut copies = vec![self.image.clone(); CALLS];
        let mut sum = 0;
        let start = Instant::now();
        for (&(record, value), copy) in self.calls.iter().zip(&mut copies) {
            sum += black_box((side.put)(kind, parameter, n, record, value, black_box(copy)));
        }
        Timing { nanoseconds: nanoseconds_to_call(start, CALLS), sum }
    }
}

fn nanoseconds_to_call(start: Instant, calls: usize) -> f64 {
    start.elapsed().as_nanos() as f64 / calls as f64
}

/// Nanoseconds to a call, and the sum of all answers.
struct Timing {
    nanoseconds: f64,
    sum: u32,
}

/// Times both sides, one right after the other. Answers the plain side first, whichever went first.
fn in_turn(plain_first: bool, time: impl Fn(&Side) -> Timing) -> (Timing, Timing) {
    if plain_first {
        let plain = time(&PLAIN);
        (plain, time(&FOREIGN))
    } else {
        let foreign = time(&FOREIGN);
        (time(&PLAIN), foreign)
    }
}

/// Nanoseconds to a call on both sides, for each round.
#[derive(Default)]
struct Times {
    plain: Vec<f64>,
    foreign: Vec<f64>,
}

impl Times {
    fn add(&mut self, (plain, foreign): (Timing, Timing)) {
        assert_eq!(plain.sum, foreign.sum, "the two sides give other answers");
        self.plain.push(plain.nanoseconds);
        self.foreign.push(foreign.nanoseconds);
    }

    fn median_ratio(&self) -> f64 {
        let mut ratios: Vec<f64> =
            self.foreign.iter().zip(&self.plain).map(|(foreign, plain)| foreign / plain).collect();
        ratios.sort_by(f64::total_cmp);
        ratios[ratios.len() / 2]
    }
}

fn least(times: &[f64]) -> f64 {
    times.iter().copied().fold(f64::INFINITY, f64::min)
}

fn print_section(title: &str, settings: &[Setting]) {
    println!("\n{title}");
    let heads = ["C entry/s", "plain/s", "C ns", "plain ns", "ratio", "of least"];
    println!("{:<5} {:<5} {:>3} {}", "call", "group", "n", heads.map(|head| format!("{head:>11}")).join(" "));
    settings.iter().for_each(|setting| print_row("put", setting.code, &setting.puts));
    settings.iter().for_each(|setting| print_row("get", setting.code, &setting.gets));
}

fn print_row(call: &str, code: Code, times: &Times) {
    let (foreign, plain) = (least(&times.foreign), least(&times.plain));
    print!("{call:<5} {:<5} {:>3} ", code.name(), code.n);
    print!("{:>11.0} {:>11.0} {foreign:>11.1} {plain:>11.1} ", 1e9 / foreign, 1e9 / plain);
    println!("{:>11.2} {:>11.2}", times.median_ratio(), foreign / plain);
}
