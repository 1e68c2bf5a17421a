//! The three calls as a caller in Rust makes them.

use balskif::{check, list, put, NoRoom, Refusal, SheetFault, PLACES_LONG, PLACES_SHORT};

/// A number of two bytes, and so many values of one byte.
const SHEET: &[u8] = b"row,word,name,one,two,three
0,rec,-,1,-,-
1,fld,n,3,2,-
2,fld,pts,4,-,-
3,u16,-,-,-,-
4,arr,-,8,5,-
5,loc,-,6,-,-
6,from,-,0,7,-
7,dot,n,-,-,-
8,u8,-,-,-,-
";

/// Runs a test with as much stack as the calls take, and a little for the test.
fn with_stack(test: fn()) {
    std::thread::Builder::new().stack_size(4 << 20).spawn(test).unwrap().join().unwrap();
}

#[test]
fn the_sheet_is_checked() {
    assert_eq!(check(SHEET), Ok(()));
    assert_eq!(check(&SHEET[1..]), Err(SheetFault { number: 1, line: 1 }));
    assert_eq!(check(&SHEET[..SHEET.len() - 1]), Err(SheetFault { number: 2, line: 10 }));
}

#[test]
fn short_and_long_lists() {
    with_stack(|| {
        let values = 3_000;
        let mut message = [&3_000_u16.to_be_bytes()[..], &[7; 3_000]].concat();
        let mut out = vec![0; 100_000];
        let full = b"fault,line,row,place,pieces,lost,layers\n14,-,8,2049,2048,-,-\n";
        assert_eq!(list(SHEET, &message, PLACES_SHORT, &mut out), Ok(&full[..]));
        for places in [values + 1, PLACES_LONG, usize::MAX] {
            let text = list(SHEET, &message, places, &mut out).unwrap();
            assert!(text.ends_with(b"\nroot.pts[2999],u8,3001,1,07\nrest,-,3002,0,-\n"));
        }
        assert_eq!(put(SHEET, &mut message, PLACES_SHORT, b"root.n", &[0, 0]), Err(Refusal { number: 14 }));
        assert_eq!(put(SHEET, &mut message, PLACES_LONG, b"root.n", &[0, 0]), Err(Refusal { number: 24 }));
        assert_eq!(put(SHEET, &mut message, PLACES_LONG, b"root.pts[2999]", &[9]), Ok(()));
        assert_eq!(message[3_000..], [7, 9]);
    });
}

#[test]
fn nothing_at_all() {
    with_stack(|| {
        let told = b"fault,line,row,place,pieces,lost,layers\n1,1,-,-,-,-,-\n";
        assert_eq!(list(&[], &[], 0, &mut []), Err(NoRoom));
        assert_eq!(list(&[], &[], 0, &mut [0; 54]), Ok(&told[..]));
        assert_eq!(put(&[], &mut [], 0, &[], &[]), Err(Refusal { number: 1 }));
    });
}

// On a thread of this size.
fn with_stack_of(bytes: usize, run: impl FnOnce() + Send + 'static) {
    std::thread::Builder::new().stack_size(bytes).spawn(run).unwrap().join().unwrap();
}

#[test]
fn takes_no_more_stack_than_it_says() {
    // What the thread itself and the lines below take comes on top.
    let own = 32 << 10;
    let calls = |places| {
        move || {
            let mut message = [0, 1, 7];
            let mut out = [0; 200];
            assert!(list(SHEET, &message, places, &mut out).is_ok());
            assert_eq!(put(SHEET, &mut message, places, b"root.pts[0]", &[9]), Ok(()));
        }
    };
    with_stack_of((64 << 10) + own, || assert_eq!(check(SHEET), Ok(())));
    with_stack_of((400 << 10) + own, calls(PLACES_SHORT));
    with_stack_of((3 << 20) + own, calls(PLACES_LONG));
}
