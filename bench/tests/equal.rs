use bench::{CPiece, Format, C_SPARE, FORMATS, LOOKUPS, TRACE};

const PLACES: usize = 65_535;

/// Whether the readers in C and in Rust tell the same of a message.
fn assert_equal(format: &Format, message: &[u8]) {
    let text = plain::list_message(format.sheet, message, PLACES);
    let mut c_text = vec![0; text.len() + C_SPARE];
    let length = format.c_list(message, &mut c_text);
    let sheet = plain::check(format.sheet, 256).unwrap();
    let mut c_pieces = vec![CPiece::default(); PLACES];
    let count = format.c_lay(message, &mut c_pieces);
    match plain::lay_bytes(&sheet, message, PLACES) {
        Ok(pieces) => {
            assert_eq!(&c_text[..length], text, "{} of {} bytes", format.name, message.len());
            assert_eq!(count, pieces.len());
            for (piece, c_piece) in pieces.iter().zip(&c_pieces) {
                assert_eq!((piece.place, piece.width), (c_piece.place, c_piece.width));
            }
            assert_eq!(format.c_lay(message, &mut c_pieces[..count]), count);
            assert_eq!(format.c_lay(message, &mut c_pieces[..count - 1]), 0);
            for room in [0, 1, 63.min(text.len() - 1), text.len() / 2, text.len() - 1] {
                assert_eq!(format.c_list(message, &mut c_text[..room]), 0);
            }
        }
        Err(fault) => {
            assert_eq!(fault.number(), 11);
            assert_eq!((length, count), (0, 0), "{} of {} bytes", format.name, message.len());
        }
    }
}

#[test]
fn whole_messages() {
    for format in &FORMATS {
        for size in [0, 1, 7, 1_001, 8_191] {
            assert_equal(format, &(format.message)(size));
        }
    }
    for size in [10_001, 32_766] {
        assert_equal(&TRACE, &bench::messages::trace(size));
    }
    assert_equal(&LOOKUPS, &bench::messages::lookups(32_765));
}

#[test]
fn sizes_of_the_messages() {
    assert_eq!(bench::messages::trace(10_001).len(), 20_005);
    assert_eq!(bench::messages::lookups(1_000).len(), 2_004);
    let records = bench::messages::records(8);
    assert_eq!(records[..4], [0, 8, 0, 5]);
}

#[test]
fn cut_and_changed_messages() {
    for format in &FORMATS {
        let whole = (format.message)(7);
        for end in 0..=whole.len() {
            assert_equal(format, &whole[..end]);
        }
        for k in 0..whole.len() {
            for byte in [0, 1, 2, 5, 255] {
                let mut changed = whole.clone();
                changed[k] = byte;
                assert_equal(format, &changed);
                changed.extend([3; 40]);
                assert_equal(format, &changed);
            }
        }
        let mut long = (format.message)(5);
        long.resize(70_000, 9);
        assert_equal(format, &long);
    }
}
