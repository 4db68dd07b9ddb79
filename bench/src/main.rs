//! How long the proved drive takes beside the model, which is ordinary Rust. `bench/run`.

mod clock;
mod messages;
mod mix;
mod race;
mod series;
mod wraps;

use model::lines::{clear_all, power_cycle, read};
use model::numbers::POOL;
use race::{lines, sessions, Course, Times, ROUNDS};

const FRAMES: usize = 100_000;
const MESSAGES: usize = 20_000;

fn main() {
    let (first, told) = mix::mixed(FRAMES, mix::FIRST);
    tell(&format!("{FRAMES} mixed frames"), &first, &told);
    let (up_to_0d, told) = mix::mixed(FRAMES, mix::UP_TO_0D);
    tell(&format!("{FRAMES} frames of kinds up to 0D"), &up_to_0d, &told);
    let (all_kinds, told) = mix::mixed(FRAMES, mix::ALL_KINDS);
    tell(&format!("{FRAMES} frames of all kinds"), &all_kinds, &told);
    let (messages, told) = messages::messages(MESSAGES);
    tell(&format!("{MESSAGES} loads by message"), &messages, &told);

    println!("Nanoseconds of processor time a frame, best of {ROUNDS} runs in turn:");
    println!("{:<46}{:>9}{:>9}{:>9}", "", "proved", "model", "ratio");
    let of_first = print("mixed frames, one session", sessions(&first));
    print_loads();
    print_io();
    print_by_tags();
    print("mixed, call by call; model on its own state", lines(&first, false));
    print("mixed, call by call; model from and to image", lines(&first, true));
    let of_older = print("frames of kinds up to 0D, one session", sessions(&up_to_0d));
    let of_all = print("frames of all kinds, one session", sessions(&all_kinds));
    let of_calls = print("frames of all kinds, call by call", lines(&all_kinds, false));
    let of_messages = print("loads by message, half damaged, one session", sessions(&messages));
    print_messages();
    print_bad_lines();
    print_by_length();
    let of_wrapped = print_wrapped();

    println!();
    judge(&format!("{FRAMES} mixed frames"), of_first);
    judge(&format!("{FRAMES} frames of kinds up to 0D"), of_older);
    judge(&format!("{FRAMES} frames of all kinds"), of_all);
    judge(&format!("{FRAMES} frames of all kinds, call by call"), of_calls);
    judge(&format!("{MESSAGES} loads by message"), of_messages);
    judge("wrapped load and clear", of_wrapped);
}

fn tell(what: &str, course: &Course, told: &str) {
    println!("{what} as one session, {} bytes of text:\n{told}\n", course.text.len());
}

fn print_loads() {
    for (in_byte, place) in [(0, "first"), (15, "last")] {
        for others in [0, POOL / 4, POOL - 1] {
            let what = format!("load and clear, {others} others, {place} byte differs");
            print(&what, sessions(&series::loads(others, in_byte)));
        }
    }
    for others in [4, POOL - 1] {
        let what = format!("load and clear, {others} others, mixed lengths");
        print(&what, sessions(&series::loads_of_mixed_lengths(others)));
    }
}

fn print_io() {
    for blocks in [1, 16, 256] {
        print(&format!("write, {blocks} blocks"), sessions(&series::writes(blocks)));
    }
    for blocks in [1, 16, 256] {
        print(&format!("read, {blocks} blocks"), sessions(&series::reads(blocks)));
    }
}

fn print_by_tags() {
    for (all, managed) in [(false, "4 tags"), (true, "all tags")] {
        let row = |what: &str| format!("{what}, 4 keys, {managed} managed");
        print(&row("power cycle"), sessions(&series::four_keys(all, &power_cycle())));
        print(&row("clear all"), sessions(&series::four_keys(all, &clear_all(1))));
        print(&row("a call"), lines(&series::four_keys(all, &read(1, 0, 0, 0)), false));
    }
}

fn print_messages() {
    for (others, more) in [(0, 0), (POOL - 1, 0), (0, 13)] {
        let what = format!("message and clear, {others} others, {} items", 29 + more);
        print(&what, sessions(&series::messages(others, more)));
    }
    // Of the last one the items are not sound, of the others they are.
    for (at, what) in [(0, "first tag"), (259, "namespace"), (363, "last type")] {
        let what = format!("message refused for its {what}");
        print(&what, sessions(&series::refused_messages(at)));
    }
}

fn print_bad_lines() {
    for (digits, bad, what) in [
        (130, Some(0), "the first of 130 digits bad"),
        (130, Some(129), "the last of 130 digits bad"),
        (1024, Some(1023), "the last of 1024 digits bad"),
        (131, None, "131 digits"),
    ] {
        print(&format!("no frame line: {what}"), sessions(&series::bad_lines(digits, bad)));
    }
}

fn print_by_length() {
    for digits in [2, 32, 130, 512, 1024] {
        let what = format!("a line of {digits} digits, unknown kind");
        print(&what, sessions(&series::bad_lines(digits, None)));
    }
}

/// Tells the times of wrapped loads as one session. Where it says so, they are those of a key.
fn print_wrapped() -> Times {
    let row = |others| format!("wrapped load and clear, {others} others");
    let times = print(&row(0), sessions(&series::wrapped_loads(0)));
    print(&row(POOL - 1), sessions(&series::wrapped_loads(POOL - 1)));
    print("wrapped load and clear, call by call", lines(&series::wrapped_loads(0), false));
    print("wrapped load refused", sessions(&series::refused_wrapped_loads()));
    print("a key wrapped", wraps::wraps());
    print("a key opened", wraps::unwraps());
    print("a key that does not open", wraps::refused());
    times
}

fn print(what: &str, times: Times) -> Times {
    println!("{what:<46}{:>9.1}{:>9.1}{:>9.2}", times.proved, times.model, times.ratio());
    times
}

fn judge(what: &str, times: Times) {
    println!(
        "bench: {what}: proved / model = {:.2}; the goal is at most 1.0, above 1.5 is a fault",
        times.ratio()
    );
}
