//! The worked examples, and some more on the borders of the rules.

use plain::{check, lay, lay_bytes, list, list_message, put, Cell, Fault, Mark};

const EXAMPLE: &[u8] = b"row,word,name,one,two,three
0,rec,-,1,-,-
1,fld,n,3,2,-
2,fld,pts,4,-,-
3,u8,-,-,-,-
4,arr,-,8,5,-
5,loc,-,6,-,-
6,from,-,0,7,-
7,dot,n,-,-,-
8,i16,-,-,-,-
";

const MESSAGE: [u8; 6] = [0x02, 0xff, 0xec, 0x00, 0x0a, 0x7f];

fn sheet(rows: &[&str]) -> Vec<u8> {
    let mut text = String::from("row,word,name,one,two,three\n");
    for (k, row) in rows.iter().enumerate() {
        text.push_str(&format!("{k},{row}\n"));
    }
    text.into_bytes()
}

fn input(sheet: &[u8], capture: &str) -> Vec<u8> {
    [sheet, b"\n", capture.as_bytes(), b"\n"].concat()
}

fn fault_line(text: &[u8]) -> String {
    let text = String::from_utf8(text.to_vec()).unwrap();
    let lines: Vec<&str> = text.lines().collect();
    assert_eq!(lines[0], "fault,line,row,place,pieces,lost,layers");
    assert_eq!(lines.len(), 2);
    lines[1].to_string()
}

#[test]
fn the_example() {
    let expected = b"path,word,place,width,bytes
root.n,u8,0,1,02
root.pts[0],i16,1,2,ffec
root.pts[1],i16,3,2,000a
rest,-,5,1,7f
";
    assert_eq!(list(&input(EXAMPLE, "02ffec000a7f"), 512), expected);
    assert_eq!(list_message(EXAMPLE, &MESSAGE, 3), expected);
    assert_eq!(fault_line(&list(&input(EXAMPLE, "--ffec"), 512)), "16,-,4,1,1,0,0");
    assert_eq!(fault_line(&list(&input(EXAMPLE, "00f"), 512)), "32,-,-,2,-,-,-");
    assert_eq!(fault_line(&list(&input(EXAMPLE, "02ffec000a7f"), 2)), "14,-,8,3,2,-,-");
    assert_eq!(fault_line(&list(&input(EXAMPLE, "02ff"), 512)), "11,-,8,1,1,-,-");
    assert_eq!(fault_line(&list(&input(EXAMPLE, "02ff"), 1)), "11,-,8,1,1,-,-");
}

#[test]
fn puts_into_the_example() {
    let mut message = MESSAGE;
    assert_eq!(put(EXAMPLE, &mut message, 512, b"root.n", &[2]), 0);
    assert_eq!(message, MESSAGE);
    assert_eq!(put(EXAMPLE, &mut message, 512, b"root.n", &[1]), 24);
    assert_eq!(put(EXAMPLE, &mut message, 512, b"root.n", &[3]), 24);
    assert_eq!(put(EXAMPLE, &mut message, 512, b"root.pts[1]", &[1]), 23);
    assert_eq!(put(EXAMPLE, &mut message, 2, b"root.n", &[2]), 14);
    for path in ["root", "root.pts", "root.pts[2]", "root.pts[01]", "root.pts[1", "root.pts[1].", "root.pts.1", "", "x"]
    {
        assert_eq!(put(EXAMPLE, &mut message, 512, path.as_bytes(), &[0, 0]), 22, "{path}");
    }
    assert_eq!(message, MESSAGE);
    assert_eq!(put(EXAMPLE, &mut message, 512, b"root.pts[1]", &[0xff, 0xff]), 0);
    assert_eq!(message, [0x02, 0xff, 0xec, 0xff, 0xff, 0x7f]);
}

#[test]
fn a_script_of_puts() {
    let unlink = sheet(&[
        "rec,-,1,-,-",
        "fld,a,3,2,-",
        "fld,b,6,-,-",
        "rec,-,4,-,-",
        "fld,n,19,5,-",
        "fld,pts,11,-,-",
        "rec,-,7,-,-",
        "fld,linked,20,8,-",
        "fld,n,19,9,-",
        "fld,pts,10,-,-",
        "alt,-,13,12,11",
        "arr,-,21,14,-",
        "arr,-,21,15,-",
        "bloc,-,16,-,-",
        "loc,-,17,-,-",
        "loc,-,18,-,-",
        "from,-,0,22,-",
        "from,-,0,23,-",
        "from,-,1,24,-",
        "u8,-,-,-,-",
        "bool,-,-,-,-",
        "i16,-,-,-,-",
        "dot,linked,-,-,-",
        "dot,n,-,-,-",
        "dot,a,25,-,-",
        "dot,n,-,-,-",
    ]);
    let mut message = [0x02, 0x00, 0x01, 0x00, 0x02, 0x01, 0x00, 0x00, 0x03, 0x00, 0x04, 0x7f];
    assert_eq!(put(&unlink, &mut message, 512, b"root.b.linked", &[0]), 24);
    assert_eq!(put(&unlink, &mut message, 512, b"root.b.n", &[2]), 0);
    assert_eq!(put(&unlink, &mut message, 512, b"root.b.linked", &[0]), 0);
    assert_eq!(put(&unlink, &mut message, 512, b"root.b.pts[1]", &[0xff, 0xff]), 0);
    let expected = b"path,word,place,width,bytes
root.a.n,u8,0,1,02
root.a.pts[0],i16,1,2,0001
root.a.pts[1],i16,3,2,0002
root.b.linked,bool,5,1,00
root.b.n,u8,6,1,02
root.b.pts[0],i16,7,2,0003
root.b.pts[1],i16,9,2,ffff
rest,-,11,1,7f
";
    assert_eq!(list_message(&unlink, &message, 512), expected);
}

#[test]
fn idle_elements() {
    assert_eq!(list_message(&sheet(&["rec,-,-,-,-"]), &[], 0), b"path,word,place,width,bytes\nrest,-,0,0,-\n");
    let array = |count: &str| sheet(&["arr,-,1,2,-", "rec,-,-,-,-", &format!("lit,-,{count},-,-")]);
    assert_eq!(list_message(&array("65535"), &[7], 0), b"path,word,place,width,bytes\nrest,-,0,1,07\n");
    assert_eq!(fault_line(&list_message(&array("65536"), &[7], 0)), "15,-,0,0,0,-,-");

    let mut rows: Vec<String> = (1..=8).map(|k| format!("arr,-,{k},9,-")).collect();
    rows.push("rec,-,-,-,-".into());
    rows.push("lit,-,65535,-,-".into());
    let rows: Vec<&str> = rows.iter().map(String::as_str).collect();
    assert_eq!(list_message(&sheet(&rows), &[], 0), b"path,word,place,width,bytes\nrest,-,0,0,-\n");

    // The same around an alternative, and with counts that are worked out.
    let mut rows: Vec<String> = (1..=8).map(|k| format!("arr,-,{k},10,-")).collect();
    rows.extend(["alt,-,9,12,12", "true,-,-,-,-", "add,-,11,11,-", "lit,-,32767,-,-", "rec,-,-,-,-"].map(String::from));
    let rows: Vec<&str> = rows.iter().map(String::as_str).collect();
    assert_eq!(list_message(&sheet(&rows), &[], 0), b"path,word,place,width,bytes\nrest,-,0,0,-\n");
}

#[test]
fn nine_arrays() {
    let nested = |count: usize| {
        let mut rows: Vec<String> = (1..=count).map(|k| format!("arr,-,{k},{},-", count + 1)).collect();
        rows.push("u8,-,-,-,-".into());
        rows.push("lit,-,1,-,-".into());
        sheet(&rows.iter().map(String::as_str).collect::<Vec<_>>())
    };
    assert_eq!(fault_line(&list_message(&nested(9), &[1], 512)), "7,2,-,-,-,-,-");
    let text = list_message(&nested(8), &[1], 512);
    assert_eq!(text, b"path,word,place,width,bytes\nroot[0][0][0][0][0][0][0][0],u8,0,1,01\nrest,-,1,0,-\n");
}

#[test]
fn numbers_above_the_limit() {
    let largest = "lit,-,9223372036854775807,-,-";
    let sum = sheet(&["arr,-,1,2,-", "u8,-,-,-,-", "add,-,3,4,-", largest, "lit,-,1,-,-"]);
    assert_eq!(fault_line(&list_message(&sum, &[1], 512)), "12,-,0,0,0,-,-");
    let under_or = sheet(&[
        "alt,-,2,1,1",
        "u8,-,-,-,-",
        "or,-,3,4,-",
        "true,-,-,-,-",
        "eq,-,5,6,-",
        "add,-,6,7,-",
        largest,
        "lit,-,1,-,-",
    ]);
    assert_eq!(fault_line(&list_message(&under_or, &[1], 512)), "12,-,0,0,0,-,-");
}

#[test]
fn an_array_behind_its_count() {
    let counted = sheet(&[
        "rec,-,1,-,-",
        "fld,A,5,2,-",
        "fld,B,6,3,-",
        "fld,len,7,4,-",
        "fld,elts,8,-,-",
        "bool,-,-,-,-",
        "char,-,-,-,-",
        "u16,-,-,-,-",
        "arr,-,12,9,-",
        "loc,-,10,-,-",
        "from,-,0,11,-",
        "dot,len,-,-,-",
        "i32,-,-,-,-",
    ]);
    let text =
        list(&input(&counted, "01670005000000190000093400003039 0000d431fffffeb3".replace(' ', "").as_str()), 512);
    let text = String::from_utf8(text).unwrap();
    let paths: Vec<&str> = text.lines().skip(1).filter_map(|line| line.split(',').next()).collect();
    assert_eq!(
        paths,
        [
            "root.A",
            "root.B",
            "root.len",
            "root.elts[0]",
            "root.elts[1]",
            "root.elts[2]",
            "root.elts[3]",
            "root.elts[4]",
            "rest"
        ]
    );
}

#[test]
fn a_mark_is_told_with_its_layers() {
    // Under a window (1, 3) the capture `aa--ffec`.
    let mark = Mark { place: 1, layers: 1 };
    let cells = [Cell::Lost(mark), Cell::Byte(0xff), Cell::Byte(0xec)];
    let sheet = check(EXAMPLE, 256).unwrap();
    let fault = lay(&sheet, &cells, 512).unwrap_err();
    assert_eq!(fault, Fault::Laying { fault: plain::LayingFault::Lost(mark), row: 4, place: 1, pieces: 1 });
}

#[test]
fn small_tables() {
    let text = sheet(&["rec,-,-,-,-", "true,-,-,-,-"]);
    for (table, line) in [(0, 2), (1, 3)] {
        let fault = check(&text, table).unwrap_err();
        assert_eq!(fault, Fault::Sheet { fault: plain::SheetFault::RowCount, line });
    }
    assert!(check(&text, 2).is_ok());
}

#[test]
fn bytes_past_the_last_are_no_cells() {
    let one = sheet(&["u8,-,-,-,-"]);
    let long = vec![0xab; 65_540];
    let text = list_message(&one, &long, 512);
    let start = b"path,word,place,width,bytes\nroot,u8,0,1,ab\nrest,-,1,65534,".len();
    assert_eq!(text.len(), start + 2 * 65_534 + 1);
    let checked = check(&one, 256).unwrap();
    assert_eq!(lay_bytes(&checked, &long, 1).unwrap().len(), 1);
}
