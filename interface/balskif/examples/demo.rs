//! Lists a small message, puts values into it, and meets refusals: as demo.c.

use std::io::{self, Write};

use balskif::{NoRoom, Refusal, SheetFault, PLACES_SHORT};

const SHEET: &[u8] = b"row,word,name,one,two,three
0,rec,-,1,-,-
1,fld,n,3,2,-
2,fld,pts,4,-,-
3,u8,-,-,-,-
4,arr,-,8,5,-
5,loc,-,6,-,-
6,from,-,0,7,-
7,dot,n,-,-,-
8,i16,-,-,-,-
";

/// The field `n` names a number as its type.
const WRONG: &[u8] = b"row,word,name,one,two,three
0,rec,-,1,-,-
1,fld,n,2,-,-
2,lit,-,1,-,-
";

fn check(sheet: &[u8]) {
    match balskif::check(sheet) {
        Ok(()) => println!("check: 0, line 0"),
        Err(SheetFault { number, line }) => println!("check: {number}, line {line}"),
    }
}

fn list(message: &[u8], places: usize, room: usize) -> io::Result<()> {
    let mut out = [0; 4096];
    match balskif::list(SHEET, message, places, &mut out[..room]) {
        Ok(text) => {
            println!("list: {} bytes", text.len());
            io::stdout().write_all(text)
        }
        Err(NoRoom) => {
            println!("list: does not fit into {room} bytes");
            Ok(())
        }
    }
}

fn put(message: &mut [u8], path: &str, value: &[u8]) {
    let number = match balskif::put(SHEET, message, PLACES_SHORT, path.as_bytes(), value) {
        Ok(()) => 0,
        Err(Refusal { number }) => number,
    };
    println!("put {path}: {number}");
}

fn main() -> io::Result<()> {
    let mut message = [0x02, 0xff, 0xec, 0x00, 0x0a, 0x7f];

    check(SHEET);
    check(WRONG);
    list(&message, PLACES_SHORT, 4096)?;
    list(&message, PLACES_SHORT, 20)?;
    list(&message, 2, 4096)?;
    put(&mut message, "root.pts[1]", &[0xff, 0xff]);
    put(&mut message, "root.pts[2]", &[0xff, 0xff]);
    put(&mut message, "root.pts[1]", &[0x01]);
    put(&mut message, "root.n", &[0x01]);
    list(&message, PLACES_SHORT, 4096)
}
