//! Compares the proved library with the plain reader: compare [COUNT [FIRST SEED]]
//!
//! The reader in `plain` was written apart from the proved code, from the same rules. Every call is made by both, on long
//! messages at the limits of the piece list and then on so many random cases; the first that differs is told whole.

mod random;

use std::collections::BTreeMap;
use std::fmt::{self, Display};
use std::io::{self, Write};
use std::process::ExitCode;

use balskif::{Refusal, SheetFault, PLACES_LONG, PLACES_SHORT};
use plain::MAX_ROWS;
use random::Case;

/// Long piece lists take much of the stack.
const STACK: usize = 16 << 20;

/// What stands in a buffer ahead of a call.
const FILLER: u8 = 0xa5;

/// So many bytes of each buffer lie ahead of what is handed out, and behind.
const MARGIN: usize = 16;

fn main() -> io::Result<ExitCode> {
    let mut numbers = std::env::args().skip(1).map(|text| text.parse::<u64>());
    let (count, first) = match (numbers.next().unwrap_or(Ok(10_000)), numbers.next().unwrap_or(Ok(0))) {
        (Ok(count), Ok(first)) if numbers.next().is_none() => (count, first),
        _ => {
            eprintln!("compare [COUNT [FIRST SEED]]");
            return Ok(ExitCode::FAILURE);
        }
    };
    let compare = move || compare_all(count, first);
    let thread = std::thread::Builder::new().stack_size(STACK).spawn(compare).expect("a thread can be made");
    let (told, status) = match thread.join().expect("the comparison does not panic") {
        Ok(outcomes) => (format!("{count} cases agree\n\n{outcomes}"), ExitCode::SUCCESS),
        Err(difference) => (format!("{difference}\n"), ExitCode::FAILURE),
    };
    io::stdout().write_all(told.as_bytes())?;
    Ok(status)
}

fn compare_all(count: u64, first: u64) -> Result<Outcomes, String> {
    let mut outcomes = Outcomes::default();
    for (title, case) in long_cases() {
        let places = [PLACES_SHORT, PLACES_LONG, PLACES_LONG + 1, usize::MAX];
        compare_case(&case, &places, &mut outcomes)
            .map_err(|call| format!("{title}\n{}", Whole { case: &case, call }))?;
    }
    for seed in first..first + count {
        let case = random::case(seed);
        let small = (seed.wrapping_mul(0x9e37_79b9_7f4a_7c15) >> 59) as usize;
        let mut places = vec![0, small, PLACES_SHORT];
        if seed % 50 == 0 || plain::list_message(&case.sheet, &case.message, PLACES_SHORT).starts_with(LIST_FULL) {
            places.push(PLACES_LONG);
        }
        compare_case(&case, &places, &mut outcomes)
            .map_err(|call| format!("seed {seed}\n{}", Whole { case: &case, call }))?;
    }
    Ok(outcomes)
}

/// How the text of a refusal with 14 begins.
const LIST_FULL: &[u8] = b"fault,line,row,place,pieces,lost,layers\n14,";

/// Messages around the limits of the lists and of messages: a number, as many values of one byte, and a rest.
fn long_cases() -> impl Iterator<Item = (String, Case)> {
    let sheet = b"row,word,name,one,two,three
0,rec,-,1,-,-
1,fld,n,3,2,-
2,fld,pts,4,-,-
3,u16,-,-,-,-
4,arr,-,8,5,-
5,loc,-,6,-,-
6,from,-,0,7,-
7,dot,n,-,-,-
8,u8,-,-,-,-
";
    let sizes: [(u16, usize); 8] =
        [(511, 3), (512, 3), (16_383, 3), (16_384, 0), (65_533, 0), (65_534, 5), (2, 65_531), (2, 65_532)];
    sizes.into_iter().map(move |(values, rest)| {
        let mut message = values.to_be_bytes().to_vec();
        message.extend((0..usize::from(values) + rest).map(|k| (k % 251) as u8));
        let path = format!("root.pts[{}]", values - 1).into_bytes();
        let title = format!("{values} values and {rest} bytes behind them");
        (title, Case { sheet: sheet.to_vec(), message, path, bytes: vec![0xee] })
    })
}

/// Makes every call of a case. Tells the first that the two answer differently.
fn compare_case(case: &Case, places: &[usize], outcomes: &mut Outcomes) -> Result<(), String> {
    compare_check(case, outcomes)?;
    for &places in places {
        compare_list(case, places, outcomes)?;
        compare_put(case, places, outcomes)?;
    }
    Ok(())
}

fn compare_check(case: &Case, outcomes: &mut Outcomes) -> Result<(), String> {
    let expected = plain::check(&case.sheet, MAX_ROWS).map(drop).map_err(|fault| match fault {
        plain::Fault::Sheet { line, .. } => SheetFault { number: fault.number(), line: line as u64 },
        _ => unreachable!("a sheet has faults of sheets only"),
    });
    let answer = balskif::check(&case.sheet);
    outcomes.count(Call::Check, answer.map_or_else(|fault| fault.number, |()| 0));
    if answer == expected {
        Ok(())
    } else {
        Err(format!("check\nproved: {answer:?}\nplain:  {expected:?}"))
    }
}

fn compare_list(case: &Case, places: usize, outcomes: &mut Outcomes) -> Result<(), String> {
    let expected = plain::list_message(&case.sheet, &case.message, places.min(PLACES_LONG));
    outcomes.count(Call::List, outcome(&expected));
    let length = expected.len();
    for room in [length, length - 1, length + 100] {
        // The text in a buffer that has room for it, and all else as it was.
        let mut after = vec![FILLER; MARGIN + room + MARGIN];
        let fits = room >= length;
        if fits {
            after[MARGIN..MARGIN + length].copy_from_slice(&expected);
        }
        let mut buffer = vec![FILLER; MARGIN + room + MARGIN];
        let out = &mut buffer[MARGIN..MARGIN + room];
        let answer = balskif::list(&case.sheet, &case.message, places, out).map(<[u8]>::len);
        if answer.ok() != fits.then_some(length) || buffer != after {
            return Err(format!(
                "list with {places} places into {room} bytes, the buffer after it within {MARGIN} bytes on each side\n\
                 proved: {answer:?}\n{}\nplain:  {length} bytes\n{}",
                buffer.escape_ascii(),
                after.escape_ascii()
            ));
        }
    }
    Ok(())
}

fn compare_put(case: &Case, places: usize, outcomes: &mut Outcomes) -> Result<(), String> {
    let Case { sheet, message, path, bytes } = case;
    let mut expected = message.clone();
    let number = plain::put(sheet, &mut expected, places.min(PLACES_LONG), path, bytes);
    outcomes.count(Call::Put, number);
    if number != 0 && expected != *message {
        return Err("put\nplain changes a message where it refuses".to_string());
    }
    let within = |message: &[u8]| [&[FILLER; MARGIN][..], message, &[FILLER; MARGIN]].concat();
    let after = within(&expected);
    let mut buffer = within(message);
    let answer = balskif::put(sheet, &mut buffer[MARGIN..MARGIN + message.len()], places, path, bytes);
    if answer.map_or_else(|Refusal { number }| number, |()| 0) == number && buffer == after {
        return Ok(());
    }
    Err(format!(
        "put with {places} places, the message after it within {MARGIN} bytes on each side\n\
         proved: {answer:?}\n{}\nplain:  {number}\n{}",
        Hex(&buffer),
        Hex(&after)
    ))
}

/// The number of the refusal that a listing tells, 0 for none.
fn outcome(listing: &[u8]) -> u8 {
    let mut lines = listing.split(|&byte| byte == b'\n');
    if lines.next().is_some_and(|line| line.starts_with(b"path,")) {
        return 0;
    }
    let number = lines.next().and_then(|line| line.split(|&byte| byte == b',').next());
    number.and_then(|text| std::str::from_utf8(text).ok()?.parse().ok()).expect("a refusal tells its number")
}

/// A case and the call that differs.
struct Whole<'a> {
    case: &'a Case,
    call: String,
}

impl Display for Whole<'_> {
    fn fmt(&self, f: &mut fmt::Formatter<'_>) -> fmt::Result {
        writeln!(f, "sheet, with other characters as in a Rust string:")?;
        for line in self.case.sheet.split_inclusive(|&byte| byte == b'\n') {
            match line.strip_suffix(b"\n") {
                Some(line) => writeln!(f, "{}", line.escape_ascii())?,
                None => writeln!(f, "{} (without a line feed)", line.escape_ascii())?,
            }
        }
        writeln!(f, "message: {}", Hex(&self.case.message))?;
        writeln!(f, "path: {}", self.case.path.escape_ascii())?;
        writeln!(f, "value: {}", Hex(&self.case.bytes))?;
        write!(f, "{}", self.call)
    }
}

struct Hex<'a>(&'a [u8]);

impl Display for Hex<'_> {
    fn fmt(&self, f: &mut fmt::Formatter<'_>) -> fmt::Result {
        self.0.iter().try_for_each(|byte| write!(f, "{byte:02x}"))
    }
}

#[derive(Clone, Copy)]
enum Call {
    Check,
    List,
    Put,
}

/// How many calls ended with which number, 0 for none.
#[derive(Default)]
struct Outcomes(BTreeMap<u8, [u64; 3]>);

impl Outcomes {
    fn count(&mut self, call: Call, number: u8) {
        self.0.entry(number).or_default()[call as usize] += 1;
    }
}

impl Display for Outcomes {
    fn fmt(&self, f: &mut fmt::Formatter<'_>) -> fmt::Result {
        writeln!(f, "{:<12}{:>8}{:>8}{:>8}", "calls", "check", "list", "put")?;
        for (number, [check, list, put]) in &self.0 {
            let name = if *number == 0 { "accepted".to_string() } else { format!("refused {number}") };
            writeln!(f, "{name:<12}{check:>8}{list:>8}{put:>8}")?;
        }
        Ok(())
    }
}
