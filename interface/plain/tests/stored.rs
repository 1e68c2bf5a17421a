//! The inputs of crates/cases/data, with the outputs that are stored there.

use std::collections::HashMap;
use std::{fs, str};

#[test]
fn stored_outputs() {
    let cases = concat!(env!("CARGO_MANIFEST_DIR"), "/../../crates/cases");
    let stored = fs::read(format!("{cases}/stdout")).expect("crates/cases has stored outputs");
    let mut outputs: HashMap<&str, Vec<u8>> = HashMap::new();
    let mut name = "";
    for line in stored.split_inclusive(|&byte| byte == b'\n') {
        match line.strip_prefix(b"== ") {
            Some(title) => name = str::from_utf8(title).expect("names are text").trim_end(),
            None => outputs.entry(name).or_default().extend(line),
        }
    }
    let mut inputs = 0;
    for entry in fs::read_dir(format!("{cases}/data")).expect("crates/cases has inputs") {
        let file = entry.expect("the folder can be read").path();
        let name = file.file_name().and_then(|name| name.to_str()).expect("names are text");
        let input = fs::read(&file).expect("the input can be read");
        assert_eq!(plain::list(&input, plain::LISTER_PLACES), outputs[name], "{name}");
        inputs += 1;
    }
    assert!(inputs > 0);
}
