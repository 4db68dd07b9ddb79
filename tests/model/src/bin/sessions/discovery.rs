//! Level 0 Discovery: its answer, the lines that are nearly its line, and the room that it asks for.

use std::sync::LazyLock;

use model::lines::*;

use crate::folder::Folder;

/// `0000` and the digits of the response that was written by hand.
static ANSWER: LazyLock<String> = LazyLock::new(|| {
    let text = include_str!(concat!(env!("CARGO_MANIFEST_DIR"), "/../discovery/response.txt"));
    text.lines()
        .filter(|line| !line.starts_with('#'))
        .fold("0000".to_string(), |all, line| all + line)
});

pub fn answer() -> &'static str {
    &ANSWER
}

pub fn add(folder: &mut Folder) {
    fresh(folder);
    changes_nothing(folder);
    same_on_a_full_drive(folder);
    nearly_its_line(folder);
    line_ends(folder);
    room_of_232_lines(folder);
    room_filled(folder);
    room_filled_without_line_feed(folder);
}

fn fresh(folder: &mut Folder) {
    folder.add(
        "discovery-on-a-fresh-drive",
        [
            (discovery(), answer()),
            (get_features(), "000012000000"),
            (discovery(), answer()),
            (release(1), "0706"),
        ],
    );
}

fn changes_nothing(folder: &mut Folder) {
    folder.add(
        "discovery-changes-nothing",
        [
            (manage(1, 2), "0000"),
            (load(1, 0, "AA", 0x11), "0000"),
            (load(1, 1, "BB", 0x22), "0000"),
            (write(1, 0, 7, 0), "0000"),
            (set_features(0x0B), "0000"),
            (discovery(), answer()),
            (get_features(), "00000B000000"),
            (set_features(0x0A), "010E"),
            (boot_write(1), "0000"),
            (manage(1, 2), "0705"),
            (load(1, 0, "AA", 0x11), "0709"),
            (load(1, 1, "BB", 0x22), "0709"),
            (read(1, 0, 7, 0), "0000"),
            (read(1, 1, 7, 0), "0028"),
            (read(1, 1, 8, 247), "0000"),
            (clear_one(1, 1), "0000"),
            (discovery(), answer()),
            (clear_one(1, 1), "070A"),
            (read(1, 0, 7, 0), "0000"),
            (power_cycle(), "0000"),
            (discovery(), answer()),
            (get_features(), "000012000000"),
            (clear_one(1, 0), "070A"),
            (load(1, 0, "BB", 0x22), "0000"),
            (read(1, 0, 7, 0), "0028"),
        ],
    );
}

/// The counts in the response are the drive's limits and not what is left of them.
fn same_on_a_full_drive(folder: &mut Folder) {
    folder.add(
        "discovery-on-a-full-drive",
        [
            (manage(1, 128), "0000"),
            (manage(2, 127), "0000"),
            (discovery(), answer()),
            (manage(3, 2), "0708"),
            (manage(3, 1), "0000"),
            (discovery(), answer()),
            (manage(4, 1), "0708"),
            (release(1), "0000"),
            (discovery(), answer()),
            (manage(4, 128), "0000"),
        ],
    );
}

fn nearly_its_line(folder: &mut Folder) {
    let lines = [
        ("0C00", "0703"),
        ("0C01", "0703"),
        ("0C0C", "0703"),
        ("0C0000", "0703"),
        ("0C0", "0701040000"),
        ("C", "0701040000"),
        ("0c", "0701030100"),
        ("0c00", "0701030100"),
        (" 0C", "0701030000"),
        ("0C ", "0701030200"),
        ("0C\r", "0701030200"),
        ("0C\t", "0701030200"),
        ("0x0C", "0701030100"),
        ("C0", "0702"),
        ("0D", "0703"),
        ("0D00", "0703"),
        ("000C", "0702"),
    ];
    let lines = lines.map(|(line, answer)| (line.to_string(), answer));
    let long = [(71, "0703"), (512, "0703"), (513, "0701020000")];
    let long = long.map(|(times, answer)| ("0C".repeat(times), answer));
    let right = [(discovery(), answer())];
    folder.add("discovery-nearly-its-line", lines.into_iter().chain(long).chain(right));
}

fn line_ends(folder: &mut Folder) {
    let told = format!("{}\n", answer());
    folder.raw("discovery-only-line-without-line-feed", "0C", told.clone());
    folder.raw(
        "discovery-last-without-line-feed",
        "\n0C\n\n0C",
        format!("0701010000\n{told}0701010000\n{told}"),
    );
    let answers = format!("0701030200\n{told}0701030000\n");
    folder.raw("discovery-carriage-return", "0C\r\n0C\n\r0C\r", answers);
}

/// The program's output, and what two lines ask of it.
const PROGRAM: usize = 53_248;
const RESPONSE: usize = 229;
const OTHER: usize = 13;

/// What the program prints for these lines, which ask for so much room.
fn in_room(folder: &mut Folder, name: impl Into<String>, text: String, asked: usize) {
    let answer = |line: &str| match line {
        "0C" => answer(),
        "09" => "000012000000",
        "0C00" => "0703",
        "0c" => "0701030100",
        "0" => "0701040000",
        _ => "0701010000",
    };
    let answers: String = text.lines().map(|line| answer(line).to_string() + "\n").collect();
    let printed = if asked <= PROGRAM { answers } else { "070F\n".to_string() };
    folder.raw(name, text, printed);
}

/// Room for 232 lines, and for 9 others behind them.
fn room_of_232_lines(folder: &mut Folder) {
    for lines in [232, 233, 1365] {
        let asked = lines * RESPONSE;
        in_room(folder, format!("discovery-{lines}-lines"), "0C\n".repeat(lines), asked);
        let name = format!("discovery-{lines}-lines-last-without-line-feed");
        in_room(folder, name, "0C\n".repeat(lines - 1) + "0C", asked);
    }
    for others in [9, 10] {
        let name = format!("discovery-232-lines-and-{others}-empty");
        let text = "0C\n".repeat(232) + &"\n".repeat(others);
        in_room(folder, name, text, 232 * RESPONSE + others * OTHER);
    }
}

/// Room used up to its last byte. A line asks by its digits: neither one that prints less than 13 bytes nor one of
/// kind 0C that is refused asks for less or more than 13.
fn room_filled(folder: &mut Folder) {
    let others = [("empty", ""), ("get-features", "09"), ("0c00", "0C00"), ("small-letters", "0c")];
    for (name, line) in others {
        for times in [203, 204] {
            let text = "0C\n".repeat(221) + &format!("{line}\n").repeat(times);
            let name = format!("discovery-221-lines-and-{times}-{name}");
            in_room(folder, name, text, 221 * RESPONSE + times * OTHER);
        }
    }
    for times in [203, 204] {
        let name = format!("discovery-221-lines-behind-{times}-empty");
        let text = "\n".repeat(times) + &"0C\n".repeat(221);
        in_room(folder, name, text, 221 * RESPONSE + times * OTHER);
    }
    for times in [3867, 3868] {
        let name = format!("discovery-13-lines-and-{times}-empty");
        let text = "0C\n".repeat(13) + &"\n".repeat(times);
        in_room(folder, name, text, 13 * RESPONSE + times * OTHER);
    }
}

fn room_filled_without_line_feed(folder: &mut Folder) {
    for times in [202, 203] {
        let name = format!("discovery-221-lines-{times}-empty-and-a-digit-without-line-feed");
        let text = "0C\n".repeat(221) + &"\n".repeat(times) + "0";
        in_room(folder, name, text, 221 * RESPONSE + (times + 1) * OTHER);
    }
    for times in [203, 204] {
        let name = format!("discovery-221-lines-behind-{times}-empty-last-without-line-feed");
        let text = "\n".repeat(times) + &"0C\n".repeat(220) + "0C";
        in_room(folder, name, text, 221 * RESPONSE + times * OTHER);
    }
}
