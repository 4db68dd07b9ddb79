//! Lines and answers, paired.

mod typist;

use words::lines::split;

fn page(session: &str, answers: &str) -> Result<String, String> {
    words::page(session.as_bytes(), answers.as_bytes())
}

#[test]
fn lines_end_at_a_line_feed() {
    let none: [&[u8]; 0] = [];
    assert_eq!(split(b""), none);
    assert_eq!(split(b"\n"), [b""]);
    assert_eq!(split(b"09"), [b"09"]);
    assert_eq!(split(b"09\n"), [b"09"]);
    assert_eq!(split(b"09\n\n"), [&b"09"[..], b""]);
    assert_eq!(split(b"\n09\r\n0C"), [&b""[..], b"09\r", b"0C"]);
}

#[test]
fn each_line_has_its_answer() {
    let awaited = "1  0A00\n   asked  write boot partition 0\n   011E   boot partition 0 is locked\n\
                   2  (empty)\n   asked  nothing that can be read\n   0701   this is no frame line: it is empty\n\
                   3  0B00\n   asked  controller level reset\n   0000   done: it changes nothing\n";
    assert_eq!(page("0A00\n\n0B00", "011E\n0701010000\n0000\n").as_deref(), Ok(awaited));
}

#[test]
fn no_lines() {
    assert_eq!(page("", "").as_deref(), Ok("The session has no lines.\n"));
}

#[test]
fn answers_of_another_session() {
    let why = "the session has 2 lines, and there are 1 answers";
    assert_eq!(page("09\n0C\n", "000012000000\n"), Err(why.to_string()));
    assert!(page("", "0000\n").is_err());
    assert!(page("09\n", "").is_err());
    assert!(page("09\n", "0000\n070F\n").is_err());
}

#[test]
fn a_session_that_is_refused_whole() {
    let whole = "070F  The session was refused whole, and no line of it was answered: ";
    let long = format!("{whole}it has more than 4,096 bytes.\n");
    let many = format!("{whole}its answers need more than 53,248 bytes (229 for each line 0C, 13 for each other).\n");
    assert_eq!(page(&"09\n".repeat(2000), "070F\n"), Ok(long.clone()));
    assert_eq!(page(&"\n".repeat(4097), "070F\n"), Ok(long));
    assert_eq!(page(&"0C\n".repeat(233), "070F\n"), Ok(many.clone()));
    assert_eq!(page(&("0C\n".repeat(1365) + "\n"), "070F\n"), Ok(many));
}

#[test]
fn line_numbers_are_in_a_column() {
    let page = page(&"0B00\n".repeat(100), &"0000\n".repeat(100)).expect("a hundred lines");
    let rows: Vec<_> = page.lines().collect();
    assert_eq!((rows[0], rows[1]), ("  1  0B00", "     asked  controller level reset"));
    assert_eq!(rows[297], "100  0B00");
}
