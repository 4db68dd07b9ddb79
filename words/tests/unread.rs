//! Lines that the drive could not read: which kind they would have been, and nothing else of them.

mod typist;

use typist::*;

/// The three rows of a line that has its kind shown and nothing else.
fn tells(line: &str, answer: &str, asked: &str, words: &str) {
    let kind = &line[..2];
    let awaited = [format!("{kind}.."), format!("asked  {asked}"), format!("{answer}   {words}")];
    assert_eq!(rows(line, answer), awaited);
}

#[test]
fn fixed_lengths() {
    let lengths = [
        ("01", 6, "a line that gives a room its numbers"),
        ("02", 4, "a line that takes a room's numbers back"),
        ("05", 8, "a line that clears one number"),
        ("06", 4, "a line that clears all numbers of a room"),
        ("07", 130, "a line that records, plays, compares or verifies"),
        ("08", 10, "a line that sets the boot locks"),
        ("09", 2, "a line that asks for the boot locks"),
        ("0A", 4, "a write of a boot partition"),
        ("0B", 4, "a reset"),
        ("0C", 2, "a discovery"),
    ];
    for (kind, digits, called) in lengths {
        let asked = format!("{called} that cannot be read");
        let long = format!("{kind:1<0$}", digits + 2);
        let why = format!("with {} digits: {called} has {digits} digits", digits + 2);
        tells(&long, "0703", &asked, &format!("the line is too long {why}"));
        if digits > 4 {
            let short = format!("{kind:1<0$}", digits - 2);
            let why = format!("with {} digits: {called} has {digits} digits", digits - 2);
            tells(&short, "0703", &asked, &format!("the line is too short {why}"));
        }
    }
    let alone = "the line is too short with 2 digits: a reset has 4 digits";
    assert_eq!(said("0B", "0703"), alone);
}

#[test]
fn lengths_of_loads() {
    let whole = load(1, 0, HERON, &KEY);
    let asked = "a load that cannot be read";
    let why = |how: &str, digits: usize| {
        let should = "a load has 74 digits and 2 for each byte of the KeyUID";
        format!("the line is too {how} with {digits} digits: {should}")
    };
    tells(&whole[..82], "0703", asked, &why("short", 82));
    tells(&(whole.clone() + "11"), "0703", asked, &why("long", 86));
    tells(&whole[..8], "0703", asked, &why("short", 8));
    for length in ["00", "11", "FF"] {
        let line = format!("{}{length}{}", &whole[..8], &whole[10..]);
        tells(&line, "0704", asked, "the KeyUID's length is not 1 to 16");
    }
    tells("0301000011", "0704", asked, "the KeyUID's length is not 1 to 16");
}

#[test]
fn lengths_of_wrapped_loads() {
    let whole = wrapped_load(1, 0, HERON, &WRAPPED);
    let asked = "a load of a wrapped key that cannot be read";
    let why = |how: &str, digits: usize| {
        let should = "a load of a wrapped key has 90 digits and 2 for each byte of the KeyUID";
        format!("the line is too {how} with {digits} digits: {should}")
    };
    tells(&whole[..98], "0703", asked, &why("short", 98));
    tells(&(whole.clone() + "11"), "0703", asked, &why("long", 102));
    tells(&wrapped_load(1, 0, HERON, &KEY), "0703", asked, &why("short", 84));
    tells(&whole[..8], "0703", asked, &why("short", 8));
    for length in ["00", "11", "FF"] {
        let line = format!("{}{length}{}", &whole[..8], &whole[10..]);
        tells(&line, "0704", asked, "the KeyUID's length is not 1 to 16");
    }
}

#[test]
fn lengths_of_replaces() {
    let whole = replace(1, 0, b"OTTER", HERON, &KEY);
    let asked = "a replace that cannot be read";
    let why = |how: &str, digits: usize| {
        let should = "a replace has 76 digits and 2 for each byte of both KeyUIDs";
        format!("the line is too {how} with {digits} digits: {should}")
    };
    tells(&whole[..94], "0703", asked, &why("short", 94));
    tells(&(whole.clone() + "11"), "0703", asked, &why("long", 98));
    tells(&whole[..8], "0703", asked, &why("short", 8));
    tells(&whole[..20], "0703", asked, &why("short", 20));
    let old = format!("{}00{}", &whole[..8], &whole[10..]);
    tells(&old, "0704", asked, "the old KeyUID's length is not 1 to 16");
    let new = format!("{}11{}", &whole[..20], &whole[22..]);
    tells(&new, "0704", asked, "the new KeyUID's length is not 1 to 16");
}

#[test]
fn messages() {
    let short = "the line is too short with 6 digits: a load by a message has 8 digits and those of the message";
    tells("0D0100", "0703", "a load by a message that cannot be read", short);
    let none = "this is no KMIP message: one begins with 420078, behind room and number";
    tells("0D010000", "0717", "a load by a message, without a message", none);
    tells("0D010000420077", "0717", "a load by a message, without a message", none);
}

#[test]
fn unknown_kinds() {
    for kind in ["00", "0F"] {
        let words = format!("there is no kind {kind}: kinds are 01 to 0E");
        tells(&format!("{kind}0100"), "0702", "nothing that the drive knows", &words);
    }
    assert_eq!(rows("0F", "0702")[0], "0F");
}

/// A line that does not begin with 0 may be the end of a key: not even its first digits are shown.
#[test]
fn the_rest_of_a_broken_line() {
    let words =
        "0702   there is no such kind: kinds are 01 to 0E. Is it the rest of a broken line?";
    for line in [hex(&KEY), "10".to_string(), "FF01".to_string()] {
        assert_eq!(rows(line, "0702"), ["..", "asked  nothing that the drive knows", words]);
    }
}

/// An answer that cannot be the line's own is told in words that fit any line, and shows no more of it.
#[test]
fn answers_of_other_lines() {
    let line = &load(1, 0, HERON, &KEY)[..82];
    for (answer, words) in [
        ("0000", "done"),
        ("0709", "the number is taken: the key there stays"),
        ("0704", "a KeyUID has 1 to 16 bytes"),
        ("0717", "this is no message that brings a key to this number"),
    ] {
        tells(line, answer, "a load that cannot be read", words);
    }
    let long = "the line is too short or too long for its kind";
    assert_eq!(said(load(1, 0, HERON, &KEY), "0703"), long);
    assert_eq!(said("FF", "0703"), long);
    assert_eq!(said("x", "0702"), "there is no such kind: kinds are 01 to 0E");
}
