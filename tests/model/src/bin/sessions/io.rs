//! I/O commands up to the key check: opcode, namespace, blocks, CETYPE, tag.

use model::lines::*;

use crate::folder::{Folder, Lines};

pub fn add(folder: &mut Folder) {
    opcodes(folder);
    opcodes_when_managed(folder);
    namespaces(folder);
    block_edges(folder);
    blocks_far_out(folder);
    blocks_of_the_last_numbers(folder);
    bytes_of_first_block(folder);
    cetypes(folder);
    unmanaged_passes(folder);
    tags(folder);
    tags_beyond_a_byte(folder);
    empty_slots(folder);
    ignored_bytes(folder);
    each_ignored_byte(folder);
    each_counted_byte(folder);
}

fn loaded() -> Lines {
    vec![(manage(1, 2), "0000"), (load(1, 0, "AA", 0x11), "0000")]
}

fn is_known(opcode: u8) -> bool {
    matches!(opcode, 0x01 | 0x02 | 0x05 | 0x0C)
}

fn opcodes(folder: &mut Folder) {
    let all: Vec<u8> = (0..=255).collect();
    for some in all.chunks(31) {
        let (first, last) = (some[0], some[some.len() - 1]);
        let answer = |opcode| if is_known(opcode) { "0000" } else { "0001" };
        folder.add(
            format!("io-opcodes-{first:02x}-to-{last:02x}"),
            some.iter().map(|&opcode| (io(opcode, 1, 0, 0, 0), answer(opcode))),
        );
    }
}

fn opcodes_when_managed(folder: &mut Folder) {
    let bad = [0x00, 0x03, 0x04, 0x06, 0x07, 0x08, 0x09, 0x0B, 0x0D, 0x0E, 0x10, 0x11, 0x12];
    let more = [0x15, 0x21, 0x7F, 0x80, 0x81, 0x82, 0x85, 0x8C, 0xFF];
    let bad = bad.into_iter().chain(more).map(|opcode| (io(opcode, 1, 0, 0, 0), "0001"));
    let good = [WRITE, READ, COMPARE, VERIFY].map(|opcode| (io(opcode, 1, 0, 0, 0), "0000"));
    folder.add("io-opcodes-when-managed", loaded().into_iter().chain(bad).chain(good));
}

fn namespaces(folder: &mut Folder) {
    let bad = [0, 5, 6, 255, 256, 257, 258, 260, 65536, 65537, 1 << 24, (1 << 24) + 1];
    let more = [1 << 31, (1 << 31) + 1, u32::MAX - 1, u32::MAX];
    let bad = || bad.into_iter().chain(more).map(|namespace| (read(namespace, 0, 0, 0), "000B"));
    let good = (1..=4).map(|namespace| (read(namespace, 0, 0, 0), "0000"));
    folder.add("io-namespaces", bad().chain(good));
    let managed = (1..=4).flat_map(|namespace| {
        [(manage(namespace, 1), "0000"), (load(namespace, 0, "AA", 0x11), "0000")]
    });
    let good = (1..=4).map(|namespace| (write(namespace, 0, 0, 0), "0000"));
    folder.add("io-namespaces-when-managed", managed.chain(bad()).chain(good));
}

fn block_edges(folder: &mut Folder) {
    let edges = [
        (0, 0, "0000"),
        (0, 254, "0000"),
        (0, 255, "0000"),
        (0, 256, "0080"),
        (0, 65535, "0080"),
        (1, 254, "0000"),
        (1, 255, "0080"),
        (128, 127, "0000"),
        (128, 128, "0080"),
        (254, 1, "0000"),
        (254, 2, "0080"),
        (255, 0, "0000"),
        (255, 1, "0080"),
        (255, 65535, "0080"),
    ];
    for opcode in [WRITE, READ, COMPARE, VERIFY] {
        let reach = |(first, field, answer)| (io(opcode, 1, 0, first, field), answer);
        let lines = loaded().into_iter().chain(edges.map(reach));
        folder.add(format!("io-block-edges-opcode-{opcode:02x}"), lines);
    }
    let reach = |(first, field, answer)| (read(4, 0, first, field), answer);
    folder.add("io-block-edges-unmanaged", edges.map(reach));
}

fn blocks_far_out(folder: &mut Folder) {
    let firsts = [256, 257, 511, 512, 65535, 65536, (1 << 32) - 1, 1 << 32, (1 << 32) + 255];
    let more = [1 << 40, 1 << 48, 1 << 56, (1 << 63) - 1, 1 << 63];
    let out = firsts
        .into_iter()
        .chain(more)
        .flat_map(|first| [(read(1, 0, first, 0), "0080"), (read(1, 0, first, 65535), "0080")]);
    folder.add("io-blocks-far-out", loaded().into_iter().chain(out));
}

fn blocks_of_the_last_numbers(folder: &mut Folder) {
    let last = u64::MAX;
    for (name, namespace) in [("managed", 1), ("unmanaged", 2)] {
        let out = [last - 65535, last - 256, last - 255, last - 254, last - 1, last];
        let out = out.into_iter().flat_map(|first| {
            [0, 1, 255, 256, 65535].map(|field| (write(namespace, 0, first, field), "0080"))
        });
        let out: Lines = out.collect();
        for (part, lines) in out.chunks(15).enumerate() {
            let name = format!("io-blocks-before-2-to-the-64-{name}-{}", part + 1);
            folder.add(name, [loaded(), lines.to_vec()].concat());
        }
    }
}

fn bytes_of_first_block(folder: &mut Folder) {
    let far = |byte| with(&read(1, 0, 0, 0), byte, 1);
    let lines = (41..=47).map(|byte| (far(byte), "0080"));
    let count = [(with(&read(1, 0, 0, 0), 49, 1), "0080"), (far(40), "0000"), (far(48), "0000")];
    folder.add("io-every-byte-of-first-block", loaded().into_iter().chain(lines).chain(count));
}

fn cetypes(folder: &mut Folder) {
    let typed = |namespace, value| with(&read(namespace, 0, 0, 0), 50, value);
    let answer = |value| if value & 0x0F == 1 { "0000" } else { "0002" };
    let all = (0..16).map(|cetype| (typed(1, cetype), answer(cetype)));
    folder.add("io-cetypes", loaded().into_iter().chain(all));
    let high = (0..16).flat_map(|half| [half << 4, half << 4 | 1]);
    let high: Lines = high.map(|value| (typed(1, value), answer(value))).collect();
    for (part, lines) in high.chunks(16).enumerate() {
        let name = format!("io-cetype-is-the-low-half-{}", part + 1);
        folder.add(name, [loaded(), lines.to_vec()].concat());
    }
    let write_typed = |value| with(&write(1, 0, 0, 0), 50, value);
    let writes = (0..16).map(|cetype| (write_typed(cetype), answer(cetype)));
    folder.add("io-cetypes-of-writes", loaded().into_iter().chain(writes));
    let unmanaged = (0..16).map(|cetype| (typed(2, cetype), "0000"));
    folder.add("io-cetypes-unmanaged", loaded().into_iter().chain(unmanaged));
}

fn unmanaged_passes(folder: &mut Folder) {
    folder.add(
        "io-unmanaged-passes",
        [
            (with(&write(1, 65535, 0, 255), 50, 0x0F), "0000"),
            (with(&read(2, 65535, 0, 255), 50, 0x00), "0000"),
            (with(&io(COMPARE, 3, 32, 255, 0), 50, 0x02), "0000"),
            (with(&io(VERIFY, 4, 0, 0, 0), 50, 0x01), "0000"),
            (manage(1, 1), "0000"),
            (write(1, 0, 0, 0), "0025"),
            (write(2, 0, 0, 0), "0000"),
            (release(1), "0000"),
            (write(1, 0, 0, 0), "0000"),
        ],
    );
}

fn tags(folder: &mut Folder) {
    for count in [1, 2, 127, 128] {
        let n = u16::from(count);
        let setup = [(manage(2, count), "0000"), (load(2, n - 1, "AA", 0x11), "0000")];
        let above = [n, n + 1, 129, 255, 256, 65535];
        let above = above.map(|tag| (read(2, tag, 0, 0), "0025"));
        let good = [(write(2, n - 1, 0, 0), "0000"), (read(2, n - 1, 0, 0), "0000")];
        folder.add(format!("io-tags-of-{count}"), setup.into_iter().chain(above).chain(good));
    }
}

fn tags_beyond_a_byte(folder: &mut Folder) {
    let far = [256, 257, 512, 4096, 32768, 65280, 65535].map(|tag| (read(1, tag, 0, 0), "0025"));
    let swapped = [(with(&read(1, 0, 0, 0), 53, 1), "0025"), (read(1, 0, 0, 0), "0000")];
    folder.add("io-tags-beyond-a-byte", loaded().into_iter().chain(far).chain(swapped));
}

fn empty_slots(folder: &mut Folder) {
    let each = [WRITE, READ, COMPARE, VERIFY];
    let empty = each.map(|opcode| (io(opcode, 1, 1, 0, 0), "0025"));
    let again = each.map(|opcode| (io(opcode, 1, 0, 0, 0), "0025"));
    let cleared = [(write(1, 0, 0, 0), "0000"), (clear_one(1, 0), "0000")];
    let reload = [(load(1, 0, "BB", 0x22), "0000"), (read(1, 0, 1, 254), "0000")];
    let lines = loaded().into_iter().chain(empty).chain(cleared).chain(again).chain(reload);
    folder.add("io-empty-slots", lines);
}

/// The bytes of a command that no rule names; of byte 50 the high half is ignored too.
const IGNORED: [std::ops::Range<usize>; 4] = [1..4, 8..40, 51..52, 54..64];

fn noisy(line: String) -> String {
    let bytes = IGNORED.into_iter().flatten();
    with(&bytes.fold(line, |line, byte| with(&line, byte, 0xFF)), 50, 0xF1)
}

fn ignored_bytes(folder: &mut Folder) {
    folder.add(
        "io-ignored-bytes-all-set",
        [
            (noisy(read(1, 0, 0, 0)), "0000"),
            (manage(1, 2), "0000"),
            (load(1, 0, "AA", 0x11), "0000"),
            (load(1, 1, "BB", 0x22), "0000"),
            (noisy(write(1, 0, 0, 127)), "0000"),
            (noisy(read(1, 0, 0, 255)), "0000"),
            (noisy(read(1, 1, 0, 255)), "0028"),
            (noisy(read(1, 1, 128, 127)), "0000"),
            (noisy(read(1, 2, 0, 0)), "0025"),
            (noisy(read(1, 0, 0, 256)), "0080"),
            (noisy(read(5, 0, 0, 0)), "000B"),
            (noisy(io(0x03, 1, 0, 0, 0)), "0001"),
        ],
    );
}

fn each_ignored_byte(folder: &mut Folder) {
    let bytes: Vec<usize> = IGNORED.into_iter().flatten().collect();
    for (part, bytes) in bytes.chunks(24).enumerate() {
        let lines = bytes.iter().map(|&byte| (with(&read(1, 0, 0, 0), byte, 0xFF), "0000"));
        let name = format!("io-each-ignored-byte-{}", part + 1);
        folder.add(name, loaded().into_iter().chain(lines));
    }
}

fn each_counted_byte(folder: &mut Folder) {
    let changed = |byte, value| with(&read(1, 0, 0, 0), byte, value);
    folder.add(
        "io-each-counted-byte",
        [
            (manage(1, 1), "0000"),
            (load(1, 0, "AA", 0x11), "0000"),
            (changed(0, 0x03), "0001"),
            (changed(4, 0x02), "0000"),
            (changed(5, 0x01), "000B"),
            (changed(6, 0x01), "000B"),
            (changed(7, 0x01), "000B"),
            (changed(40, 0xFF), "0000"),
            (changed(41, 0x01), "0080"),
            (changed(47, 0x01), "0080"),
            (changed(48, 0xFF), "0000"),
            (changed(49, 0x01), "0080"),
            (changed(50, 0x00), "0002"),
            (changed(52, 0x01), "0025"),
            (changed(53, 0x01), "0025"),
        ],
    );
}
