use std::io::{self, Read, Write};
use std::process::ExitCode;

/// Lists the message on standard input into a list of so many places as the first argument says.
fn main() -> ExitCode {
    let places = match std::env::args().nth(1) {
        None => plain::LISTER_PLACES,
        Some(text) => match text.parse() {
            Ok(places) => places,
            Err(error) => {
                eprintln!("plain: {text}: {error}");
                return ExitCode::FAILURE;
            }
        },
    };
    match run(places) {
        Ok(()) => ExitCode::SUCCESS,
        Err(error) => {
            eprintln!("plain: {error}");
            ExitCode::FAILURE
        }
    }
}

fn run(places: usize) -> io::Result<()> {
    let mut input = Vec::new();
    io::stdin().lock().read_to_end(&mut input)?;
    io::stdout().lock().write_all(&plain::list(&input, places))
}
