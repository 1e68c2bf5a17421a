//! Times the proved library, plain Rust, C and construct on the same messages, and prints tables in markdown.

mod construct;
mod limits;

use std::hint::black_box;
use std::path::{Path, PathBuf};
use std::time::{Duration, Instant};

use balskif::{PLACES_LONG, PLACES_SHORT};
use bench::{Format, C_SPARE, LOOKUPS, RECORDS, TRACE};
use construct::{Construct, Times};

const MESSAGES: [(&str, Format, u16); 4] = [
    ("trace of 1,001 points", TRACE, 1_001),
    ("trace of 10,001 points", TRACE, 10_001),
    ("1,000 records", RECORDS, 1_000),
    ("look-ups, m = 1,000", LOOKUPS, 1_000),
];

const GROWTH: [(&str, Format, &[u16]); 3] = [
    ("trace, points", TRACE, &[0, 1_000, 2_000, 4_000, 8_000, 16_000]),
    ("records", RECORDS, &[250, 500, 1_000, 2_000, 3_000]),
    ("look-ups, m", LOOKUPS, &[250, 500, 1_000, 2_000]),
];

/// The lists that are taken for messages: the smallest that has room for all pieces.
const LISTS: [usize; 3] = [PLACES_SHORT, 2_048, PLACES_LONG];

/// So often all is measured; in each pass the calls take so many turns, each for so long, and construct is run once.
const PASSES: usize = 4;
const TURNS: usize = 5;
const TURN: Duration = Duration::from_millis(20);

const LISTER: &str = concat!(env!("CARGO_MANIFEST_DIR"), "/../crates/lister/out/lister");

/// Long piece lists take much of the stack.
const STACK: usize = 16 << 20;

fn main() {
    let lister = std::env::var_os("BALSKIF_LISTER").map_or_else(|| PathBuf::from(LISTER), PathBuf::from);
    if !print_limits(&lister) {
        std::process::exit(1);
    }
    let thread = std::thread::Builder::new().stack_size(STACK).spawn(measure).expect("a thread can be made");
    if thread.join().is_err() {
        std::process::exit(1);
    }
}

fn measure() {
    let construct = Construct::find();
    let messages = MESSAGES.map(|(title, format, size)| Message::new(title, format, size));
    let growth: Vec<Message> = GROWTH
        .iter()
        .flat_map(|&(title, format, sizes)| sizes.iter().map(move |&size| Message::new(title, format, size)))
        .collect();
    for message in messages.iter().chain(&growth) {
        message.check_equal(construct.as_ref());
    }

    let mut calls = Vec::new();
    for message in &messages {
        calls.extend(message.listing_calls());
        calls.extend(message.putting_calls());
    }
    for message in &growth {
        calls.push(message.proved_listing(PLACES_LONG));
    }
    let mut least = vec![u64::MAX; calls.len()];
    let mut construct_times = [None; MESSAGES.len()];
    for _ in 0..PASSES {
        for _ in 0..TURNS {
            take_turns(&mut calls, &mut least);
        }
        if let Some(construct) = &construct {
            for (message, least) in messages.iter().zip(&mut construct_times) {
                let times = construct.times(message.format.name, &message.bytes);
                *least = Some(least.map_or(times, |least: Times| least.min(times)));
            }
        }
    }
    let (times, growth_times) = least.split_at(calls.len() - growth.len());
    let times: Vec<[u64; 5]> = times.chunks(5).map(|times| times.try_into().expect("five calls of each")).collect();

    print_listing(&messages, &times, construct.as_ref(), &construct_times);
    print_putting(&messages, &times);
    print_growth(&growth, growth_times);
}

/// A message to be measured, with what is known of it.
struct Message {
    title: String,
    format: Format,
    size: usize,
    bytes: Vec<u8>,
    text: Vec<u8>,
    pieces: usize,
    places: usize,
}

impl Message {
    fn new(title: &str, format: Format, size: u16) -> Message {
        let bytes = (format.message)(size);
        let text = plain::list_message(format.sheet, &bytes, PLACES_LONG);
        assert!(text.starts_with(b"path,"), "{title} is refused");
        let pieces = text.iter().filter(|&&byte| byte == b'\n').count() - 2;
        let places = LISTS.into_iter().find(|&places| pieces <= places).expect("some list has room");
        Message { title: title.to_string(), format, size: size.into(), bytes, text, pieces, places }
    }

    /// The path and the width of the last piece.
    fn last(&self) -> (&str, usize) {
        let text = std::str::from_utf8(&self.text).expect("a listing is text");
        let mut values = text.lines().rev().nth(1).expect("the message has a piece").split(',');
        let path = values.next().expect("a line has a path");
        (path, values.nth(2).and_then(|width| width.parse().ok()).expect("a line has a width"))
    }

    /// Stops unless all list the message alike.
    fn check_equal(&self, construct: Option<&Construct>) {
        let Message { title, format, bytes, text, .. } = self;
        let mut out = vec![0; text.len() + C_SPARE];
        assert!(
            balskif::list(format.sheet, bytes, self.places, &mut out) == Ok(text),
            "{title}: proved and plain differ"
        );
        let length = format.c_list(bytes, &mut out);
        assert!(out[..length] == *text, "{title}: C and plain differ");
        if let Some(construct) = construct {
            for what in ["list", "list_compiled"] {
                assert!(construct.run(format.name, what, bytes) == *text, "{title}: construct and plain differ");
            }
        }
    }
}

impl Message {
    fn proved_listing(&self, places: usize) -> Call<'_> {
        let mut out = vec![0; self.text.len()];
        Box::new(move || {
            balskif::list(black_box(self.format.sheet), black_box(&self.bytes), places, &mut out).ok();
            black_box(&out);
        })
    }

    /// Proved, plain, C.
    fn listing_calls(&self) -> [Call<'_>; 3] {
        let mut out = vec![0; self.text.len() + C_SPARE];
        [
            self.proved_listing(self.places),
            Box::new(|| {
                black_box(plain::list_message(black_box(self.format.sheet), black_box(&self.bytes), self.places));
            }),
            Box::new(move || {
                self.format.c_list(black_box(&self.bytes), &mut out);
                black_box(&out);
            }),
        ]
    }

    /// Proved, plain.
    fn putting_calls(&self) -> [Call<'_>; 2] {
        let sheet = self.format.sheet;
        let (path, width) = self.last();
        let (path, value) = (path.as_bytes(), &[0x12, 0x34][..width]);
        let (mut proved, mut plain) = (self.bytes.clone(), self.bytes.clone());
        let is_put = balskif::put(sheet, &mut proved, self.places, path, value) == Ok(())
            && plain::put(sheet, &mut plain, self.places, path, value) == 0;
        assert!(is_put && proved == plain && proved != self.bytes, "{}: the puts differ", self.title);
        [
            Box::new(move || {
                black_box(balskif::put(sheet, black_box(&mut proved), self.places, black_box(path), value)).ok();
            }),
            Box::new(move || {
                black_box(plain::put(sheet, black_box(&mut plain), self.places, black_box(path), value));
            }),
        ]
    }
}

type Call<'a> = Box<dyn FnMut() + 'a>;

/// Makes each call for a turn, and keeps its least nanoseconds.
fn take_turns(calls: &mut [Call], least: &mut [u64]) {
    for (call, least) in calls.iter_mut().zip(least) {
        let end = Instant::now() + TURN;
        // The first call of a turn warms up.
        call();
        loop {
            let start = Instant::now();
            call();
            let now = Instant::now();
            *least = (*least).min((now - start).as_nanos() as u64);
            if now >= end {
                break;
            }
        }
    }
}

/// Prints how long the lister takes for the inputs that it has to list soon; answers whether it does.
fn print_limits(lister: &Path) -> bool {
    println!("Inputs of which little is placed, a whole run of the lister, microseconds:\n");
    println!("| input | microseconds |\n|---|--:|");
    let mut are_soon = true;
    for name in limits::INPUTS {
        match limits::least_time(lister, name) {
            Some(time) if time < limits::LIMIT => println!("| {name} | {} |", grouped(time.as_micros() as usize)),
            _ => {
                eprintln!("bench: {name} is not listed within {} s", limits::LIMIT.as_secs_f64());
                are_soon = false;
            }
        }
    }
    println!();
    are_soon
}

fn print_listing(
    messages: &[Message],
    times: &[[u64; 5]],
    construct: Option<&Construct>,
    construct_times: &[Option<Times>],
) {
    let with = construct.map_or("construct is not installed", |construct| &construct.version);
    println!("Laying and listing a whole message, least microseconds ({with}):\n");
    println!(
        "| message | bytes | pieces | places | proved | plain Rust | C | construct | construct, compiled \
         | proved : plain | proved : C | construct : proved |"
    );
    println!("|---|--:|--:|--:|--:|--:|--:|--:|--:|--:|--:|--:|");
    for ((message, &[proved, plain, c, ..]), construct) in messages.iter().zip(times).zip(construct_times) {
        let absent = || "not installed".to_string();
        let columns = [
            message.title.clone(),
            grouped(message.bytes.len()),
            grouped(message.pieces),
            grouped(message.places),
            microseconds(proved),
            microseconds(plain),
            microseconds(c),
            construct.map_or_else(absent, |times| microseconds(times.list)),
            construct.map_or_else(absent, |times| microseconds(times.list_compiled)),
            ratio(proved, plain),
            ratio(proved, c),
            construct.map_or_else(absent, |times| ratio(times.list.min(times.list_compiled), proved)),
        ];
        println!("| {} |", columns.join(" | "));
    }
    if construct.is_some() {
        println!(
            "\nConstruct : proved is of the quicker of its two. Construct without the listing, least microseconds:\n"
        );
        println!("| message | parsing | parsing, compiled |\n|---|--:|--:|");
        for (message, times) in messages.iter().zip(construct_times) {
            let Some(Times { parse, parse_compiled, .. }) = *times else { continue };
            println!("| {} | {} | {} |", message.title, microseconds(parse), microseconds(parse_compiled));
        }
    }
}

fn print_putting(messages: &[Message], times: &[[u64; 5]]) {
    println!("\nPutting a value to the last piece, least microseconds:\n");
    println!("| message | piece | bytes put | proved | plain Rust | proved : plain |\n|---|---|--:|--:|--:|--:|");
    for (message, &[.., proved, plain]) in messages.iter().zip(times) {
        let (path, width) = message.last();
        let (one, other) = (microseconds(proved), microseconds(plain));
        println!("| {} | `{path}` | {width} | {one} | {other} | {} |", message.title, ratio(proved, plain));
    }
}

fn print_growth(messages: &[Message], times: &[u64]) {
    println!("\nGrowth: the proved library with lists of {} places, laying and listing:\n", grouped(PLACES_LONG));
    println!("| message | size | pieces | microseconds | nanoseconds a piece |\n|---|--:|--:|--:|--:|");
    for (Message { title, size, pieces, .. }, &time) in messages.iter().zip(times) {
        let each = grouped((time as f64 / *pieces as f64).round() as usize);
        println!("| {title} | {} | {} | {} | {each} |", grouped(*size), grouped(*pieces), microseconds(time));
    }
}

/// With one place behind the point where there are few.
fn microseconds(nanoseconds: u64) -> String {
    match nanoseconds {
        0..=99_949 => format!("{:.1}", nanoseconds as f64 / 1_000.0),
        _ => grouped((nanoseconds as f64 / 1_000.0).round() as usize),
    }
}

fn ratio(one: u64, other: u64) -> String {
    match one as f64 / other as f64 {
        ratio if ratio < 99.95 => format!("{ratio:.1}"),
        ratio => grouped(ratio.round() as usize),
    }
}

/// With a comma ahead of each three digits.
fn grouped(number: usize) -> String {
    let digits = number.to_string();
    let groups: Vec<_> = digits.as_bytes().rchunks(3).rev().map(String::from_utf8_lossy).collect();
    groups.join(",")
}
