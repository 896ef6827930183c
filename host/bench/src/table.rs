//! The table: a line for each export and size.

use std::hint::black_box;

use fuzz::counts::grouped;
use fuzz::export::{Export, Given};
use fuzz::lent::Lent;

use crate::measure::{Contender, seconds};
use crate::openssl::{self, OpenSsl};

/// How many of a call's inputs are tried before it is timed.
const TRIED: u64 = 4;

/// A call at one size.
pub struct Call<'a> {
    /// The export.
    pub export: &'static Export,
    /// Which call of several, if the export has several here.
    pub kind: &'static str,
    /// The size, and what is counted.
    pub size: usize,
    /// Of what.
    pub unit: &'static str,
    /// What the call with a number is given.
    pub given: Box<dyn Fn(u64) -> Given<'a> + 'a>,
    /// The result of the call.
    pub result: u32,
    /// How many bytes of output it is lent.
    pub output: usize,
    /// The parts that are hashed.
    pub hashed: Vec<&'a [u8]>,
}

/// A line that is timed: the library, the second program, and OpenSSL by each of its ways.
pub struct Timed<'a> {
    /// The name of what is called.
    pub name: String,
    /// The size, and what is counted.
    pub size: usize,
    /// Of what.
    pub unit: &'static str,
    /// The library.
    pub library: Contender<'a>,
    /// The second program.
    pub second: Contender<'a>,
    /// OpenSSL.
    pub openssl: Vec<Contender<'a>>,
}

/// The lines so far.
pub struct Table {
    openssl: Vec<OpenSsl>,
    /// The name, size and seconds of the line before.
    before: Option<(String, usize, f64)>,
}

impl Table {
    /// Prints the head of the table.
    pub fn new() -> Self {
        println!(
            "| Export | Size | Library | Growth (of size) | Library / second | Library / OpenSSL |"
        );
        println!("|---|---|---|---|---|---|");
        Self {
            openssl: openssl::ways(),
            before: None,
        }
    }

    /// OpenSSL's ways of MD5.
    pub fn openssl(&self) -> &[OpenSsl] {
        &self.openssl
    }

    /// The lines of these calls.
    pub fn calls<'a>(&mut self, calls: impl IntoIterator<Item = Call<'a>>) {
        for call in calls {
            self.call(&call);
        }
    }

    /// Times a call and prints its line, after seeing that both programs say the same.
    fn call(&mut self, call: &Call) {
        try_out(call);
        let mut by_library = vec![0; call.output];
        let mut by_second = vec![0; call.output];
        let ways = self.openssl.iter().filter(|_| !call.hashed.is_empty());
        let openssl = ways.map(|way| hashing(way.clone(), &call.hashed)).collect();
        let name = call.export.name.trim_start_matches("dwarnizza_");
        self.line(Timed {
            name: format!("`{name}`{}", call.kind),
            size: call.size,
            unit: call.unit,
            library: by_number(call, move |given| {
                library(call.export, given, &mut by_library, &mut [0; 8])
            }),
            second: by_number(call, move |given| {
                (call.export.second)(given, &mut by_second).result
            }),
            openssl,
        });
    }

    /// Times a line and prints it.
    pub fn line(&mut self, timed: Timed) {
        let Timed {
            name, size, unit, ..
        } = timed;
        let mut contenders = vec![timed.library, timed.second];
        contenders.extend(timed.openssl);
        let times = seconds(&mut contenders);
        let (library, second) = (times[0], times[1]);
        let openssl = times[2..].iter().copied().min_by(f64::total_cmp);
        let growth = match &self.before {
            Some((before, size_before, seconds)) if *before == name => {
                let of_size = size as f64 / *size_before as f64;
                format!("{:.2} ({of_size:.1})", library / seconds)
            }
            _ => String::new(),
        };
        println!(
            "| {name} | {} {unit} | {} | {growth} | {:.2} | {} |",
            grouped(size as u64),
            duration(library),
            second / library,
            openssl.map_or(String::new(), |openssl| format!("{:.2}", openssl / library))
        );
        self.before = Some((name, size, library));
    }
}

/// Sees that both programs say the same, with the result that is told.
fn try_out(call: &Call) {
    let name = call.export.name;
    let mut by_library = vec![0; call.output];
    let mut by_second = vec![0; call.output];
    for number in 0..TRIED {
        let given = (call.given)(number);
        let said = (call.export.second)(&given, &mut by_second);
        let mut answer = [0; 8];
        let result = library(call.export, &given, &mut by_library, &mut answer);
        assert_eq!((result, answer), (said.result, said.words), "{name}");
        assert_eq!(result, call.result, "{name}");
        assert!(by_library == by_second, "the outputs of {name} differ");
    }
}

/// A call of the library.
pub fn library(export: &Export, given: &Given, output: &mut [u8], answer: &mut [u64; 8]) -> u32 {
    let lent = Lent {
        output: output.as_mut_ptr(),
        length: output.len(),
        answer,
    };
    // SAFETY: output and answer are lent for this call alone, and the given is that of the export.
    unsafe { export.library.call(given, lent) }
}

/// Makes the calls of one number after the other.
fn by_number<'a>(call: &'a Call<'_>, mut task: impl FnMut(&Given) -> u32 + 'a) -> Contender<'a> {
    let mut number = 0;
    Box::new(move |times| {
        for _ in 0..times {
            black_box(task(black_box(&(call.given)(number))));
            number += 1;
        }
    })
}

/// The MD5 of each part.
fn hashing<'a>(way: OpenSsl, hashed: &'a [&'a [u8]]) -> Contender<'a> {
    Box::new(move |times| {
        for part in (0..times).flat_map(|_| hashed) {
            black_box(way.digest(black_box(part)));
        }
    })
}

/// A time with about three digits.
pub fn duration(seconds: f64) -> String {
    let (number, unit) = match seconds {
        ..1e-6 => (seconds * 1e9, "ns"),
        ..1e-3 => (seconds * 1e6, "µs"),
        ..1.0 => (seconds * 1e3, "ms"),
        _ => (seconds, "s"),
    };
    let places = match number {
        ..10.0 => 2,
        ..100.0 => 1,
        _ => 0,
    };
    format!("{number:.places$} {unit}")
}
