/* The header against the library: every size, offset, lock state, answer, fault of a line and discovery field of
 * include/tuffaleen.h, by what the library does. The buffers are larger than the header says, so that a wrong number
 * makes a failure and no crash. */
#include <stdio.h>
#include <string.h>
#include <tuffaleen.h>

#define ROOM 32768
#define NUMBERS 256
#define UNTOUCHED 0xEE

#define KEY_1 "1111111111111111111111111111111111111111111111111111111111111111"
#define KEY_2 "2222222222222222222222222222222222222222222222222222222222222222"
#define UID_16 "10" "A0A1A2A3A4A5A6A7A8A9AAABACADAEAF"

/* RFC 3394, section 4.6: a key-encryption key, a key, and what it is wrapped to; and that with its last bit changed. */
#define RFC_KEK "000102030405060708090A0B0C0D0E0F101112131415161718191A1B1C1D1E1F"
#define RFC_KEY "00112233445566778899AABBCCDDEEFF000102030405060708090A0B0C0D0E0F"
#define RFC_WRAPPED "28C9F404C4B810F4CBCCB35CFB87F8263F5786E2D80ED326CBC7F0E71A99F43BFB988B9B7A02DD2" "1"
#define RFC_SPOILT "28C9F404C4B810F4CBCCB35CFB87F8263F5786E2D80ED326CBC7F0E71A99F43BFB988B9B7A02DD2" "0"

/* An I/O command to namespace 1, from a first block, with a block count minus one and a key tag. */
#define IO(opcode, block, more, tag) \
    "07" opcode "00000001000000" "0000000000000000000000000000000000000000000000000000000000000000" \
    block "00000000000000" more "00" "0100" tag "00" "00000000000000000000"

/* The key-encryption key that drives start with here: that of RFC_KEK. Behind its 32 bytes there are others. */
static const uint8_t kek[64] = {
    0x00, 0x01, 0x02, 0x03, 0x04, 0x05, 0x06, 0x07, 0x08, 0x09, 0x0A, 0x0B, 0x0C, 0x0D, 0x0E, 0x0F,
    0x10, 0x11, 0x12, 0x13, 0x14, 0x15, 0x16, 0x17, 0x18, 0x19, 0x1A, 0x1B, 0x1C, 0x1D, 0x1E, 0x1F,
};

static uint8_t image[ROOM], marks[ROOM], awaited_image[ROOM], awaited_marks[ROOM], out[ROOM], response[ROOM];
static uint32_t fields[NUMBERS], awaited_fields[NUMBERS];
static size_t written;
static int failures;

#define CHECK(good, ...) \
    do { \
        if (!(good)) { \
            failures++; \
            printf("layout: different: " __VA_ARGS__); \
            puts(""); \
        } \
    } while (0)

static uint16_t ask_in(size_t out_len, const char *line, size_t line_len)
{
    return tuffaleen_line(image, TUFFALEEN_IMAGE_BYTES, marks, TUFFALEEN_MARKS_BYTES, (const uint8_t *)line, line_len,
                          out, out_len, &written);
}

static uint16_t ask_text(const char *line, size_t line_len)
{
    return ask_in(TUFFALEEN_ANSWER_BYTES, line, line_len);
}

static uint16_t ask(const char *line)
{
    return ask_text(line, strlen(line));
}

/* The byte that two digits are. */
static int byte_of(const char *digits)
{
    int high = digits[0] <= '9' ? digits[0] - '0' : digits[0] - 'A' + 10;
    int low = digits[1] <= '9' ? digits[1] - '0' : digits[1] - 'A' + 10;
    return high << 4 | low;
}

static void lay_digits(uint8_t *bytes, const char *digits)
{
    for (size_t i = 0; digits[2 * i] != 0; i++)
        bytes[i] = byte_of(digits + 2 * i);
}

static uint16_t ask_frame(const uint8_t *frame, size_t len)
{
    static char line[ROOM];
    for (size_t i = 0; i < len; i++) {
        line[2 * i] = "0123456789ABCDEF"[frame[i] >> 4];
        line[2 * i + 1] = "0123456789ABCDEF"[frame[i] & 15];
    }
    return ask_text(line, 2 * len);
}

static void start(void)
{
    memset(image, UNTOUCHED, ROOM);
    memset(marks, UNTOUCHED, ROOM);
    uint16_t answer = tuffaleen_start(image, TUFFALEEN_IMAGE_BYTES, marks, TUFFALEEN_MARKS_BYTES, kek);
    CHECK(answer == TUFFALEEN_DONE, "start answers %04X", answer);
}

static void manage(int ns, int tags)
{
    uint16_t answer = ask_frame((uint8_t[]){0x01, ns, tags}, 3);
    CHECK(answer == TUFFALEEN_DONE, "%d tags for namespace %d: %04X", tags, ns, answer);
}

/* The bytes that a slot gets: a KeyUID of 1 to 16 bytes that no other has. Tags that get one length are 16 apart. */
static void lay_slot(int ns, int tag, uint8_t slot[49])
{
    memset(slot, 0, 49);
    slot[0] = tag % 16 + 1;
    for (int i = 0; i < slot[0]; i++)
        slot[1 + i] = ns + tag + i;
    for (int i = 0; i < 32; i++)
        slot[17 + i] = 255 - ns - tag - 3 * i;
}

/* Loads these bytes, and tells them. */
static void load(int ns, int tag, uint8_t slot[49])
{
    lay_slot(ns, tag, slot);
    uint8_t len = slot[0], frame[53] = {0x03, ns, tag, 0, len};
    memcpy(frame + 5, slot + 1, len);
    memcpy(frame + 5 + len, slot + 17, 32);
    uint16_t answer = ask_frame(frame, 37 + len);
    CHECK(answer == TUFFALEEN_DONE, "load under tag %d of namespace %d: %04X", tag, ns, answer);
}

/* The message that brings a slot's KeyUID and key, cut to these lengths or with more bytes. It stands at `out`. */
static uint16_t write_message(int ns, int tag, const uint8_t slot[49], size_t uid_len, size_t key_len, size_t out_len)
{
    static uint8_t uid[ROOM], key[ROOM];
    memcpy(uid, slot + 1, 16);
    memcpy(key, slot + 17, 32);
    memset(out, UNTOUCHED, ROOM);
    written = ROOM;
    return tuffaleen_message(ns, tag, uid, uid_len, key, key_len, out, out_len, &written);
}

/* Lays the frame that brings the message at `out`, and tells its length. */
static size_t lay_message_frame(uint8_t *frame, int ns, int tag)
{
    memcpy(frame, (uint8_t[]){0x0D, ns, tag, 0}, 4);
    memcpy(frame + 4, out, written);
    return 4 + written;
}

/* The same bytes as `load`, by a message. */
static void load_by_message(int ns, int tag, uint8_t slot[49])
{
    static uint8_t frame[ROOM];
    lay_slot(ns, tag, slot);
    uint16_t answer = write_message(ns, tag, slot, slot[0], 32, TUFFALEEN_MESSAGE_BYTES);
    CHECK(answer == TUFFALEEN_DONE && written == (slot[0] > 8 ? 408 : 400),
          "a message with a KeyUID of %d: %04X, %d bytes", slot[0], answer, (int)written);
    answer = ask_frame(frame, lay_message_frame(frame, ns, tag));
    CHECK(answer == TUFFALEEN_DONE, "load by message under tag %d of namespace %d: %04X", tag, ns, answer);
}

/* Round keys go through words, of which just these become zero, whatever they held. */
static uint32_t words[2 * TUFFALEEN_ROUND_KEY_WORDS];

static void lay_words(void)
{
    memset(words, UNTOUCHED, sizeof words);
}

static void check_words(void)
{
    size_t zeros = 0;
    while (zeros < sizeof words / sizeof *words && words[zeros] == 0)
        zeros++;
    CHECK(zeros == TUFFALEEN_ROUND_KEY_WORDS, "round keys have %d words, and %d are zeroed", TUFFALEEN_ROUND_KEY_WORDS,
          (int)zeros);
    for (size_t i = zeros; i < sizeof words / sizeof *words; i++)
        CHECK(words[i] == UNTOUCHED * 0x01010101u, "word %d behind the round keys is written", (int)i);
}

static void wrap(const uint8_t *opener, uint8_t *bytes)
{
    lay_words();
    tuffaleen_wrap(opener, bytes, words);
    check_words();
}

static uint16_t unwrap(const uint8_t *opener, uint8_t *bytes)
{
    lay_words();
    uint16_t answer = tuffaleen_unwrap(opener, bytes, words);
    check_words();
    return answer;
}

/* The same bytes as `load`, the key wrapped. */
static void load_wrapped(int ns, int tag, uint8_t slot[49])
{
    lay_slot(ns, tag, slot);
    uint8_t len = slot[0], frame[61] = {0x0E, ns, tag, 0, len};
    memcpy(frame + 5, slot + 1, len);
    memcpy(frame + 5 + len + 8, slot + 17, 32);
    wrap(kek, frame + 5 + len);
    uint16_t answer = ask_frame(frame, 45 + len);
    CHECK(answer == TUFFALEEN_DONE, "wrapped load under tag %d of namespace %d: %04X", tag, ns, answer);
}

static void await_as_now(void)
{
    memcpy(awaited_image, image, ROOM);
    memcpy(awaited_marks, marks, ROOM);
}

static void lay(uint8_t *whole, size_t at, const uint8_t *bytes, size_t len)
{
    CHECK(at <= ROOM - len, "an offset of %ld", (long)at);
    if (at <= ROOM - len)
        memcpy(whole + at, bytes, len);
}

static int as_awaited(void)
{
    return memcmp(image, awaited_image, ROOM) == 0 && memcmp(marks, awaited_marks, ROOM) == 0;
}

static void check_buffer(int image_off, int marks_off, uint16_t awaited)
{
    size_t image_len = TUFFALEEN_IMAGE_BYTES + image_off, marks_len = TUFFALEEN_MARKS_BYTES + marks_off;
    start();
    await_as_now();
    uint16_t answer = tuffaleen_line(image, image_len, marks, marks_len, (const uint8_t *)"0B00", 4, out,
                                     TUFFALEEN_ANSWER_BYTES, &written);
    CHECK(answer == awaited, "a line, sizes off by %d and %d: %04X", image_off, marks_off, answer);
    answer = tuffaleen_start(image, image_len, marks, marks_len, kek);
    CHECK(answer == awaited, "start, sizes off by %d and %d: %04X", image_off, marks_off, answer);
    CHECK(as_awaited(), "bytes after calls with sizes off by %d and %d", image_off, marks_off);
}

static void await_fresh_image(const uint8_t *of_kek)
{
    memset(awaited_image, UNTOUCHED, ROOM);
    memset(awaited_image, 0, TUFFALEEN_IMAGE_BYTES);
    lay(awaited_image, TUFFALEEN_LOCKS_AT, (uint8_t[]){TUFFALEEN_WRITE_LOCKED, TUFFALEEN_WRITE_LOCKED}, 2);
    lay(awaited_image, TUFFALEEN_KEK_AT, of_kek, TUFFALEEN_KEK_BYTES);
}

static void check_fresh(void)
{
    await_fresh_image(kek);
    memset(awaited_marks, UNTOUCHED, ROOM);
    memset(awaited_marks, 0, TUFFALEEN_MARKS_BYTES);
    start();
    CHECK(as_awaited(), "the bytes of a fresh drive");
}

/* A drive in use is started with another key-encryption key. An image of the right length becomes the fresh drive's
 * with that, marks of the right length become zero if the image is right too, and what is wrong stays. */
static void check_other_kek(int image_off, int marks_off, uint16_t awaited)
{
    uint8_t other[64], slot[49];
    for (size_t i = 0; i < sizeof other; i++)
        other[i] = 255 - 5 * i;
    start();
    manage(2, 9);
    load(2, 8, slot);
    lay(marks, TUFFALEEN_MARK_AT(2, 7), slot, 17);
    await_as_now();
    if (image_off == 0)
        await_fresh_image(other);
    if (image_off == 0 && marks_off == 0)
        memset(awaited_marks, 0, TUFFALEEN_MARKS_BYTES);
    uint16_t answer = tuffaleen_start(image, TUFFALEEN_IMAGE_BYTES + image_off, marks,
                                      TUFFALEEN_MARKS_BYTES + marks_off, other);
    CHECK(answer == awaited && as_awaited(), "another key-encryption key, sizes off by %d and %d: %04X", image_off,
          marks_off, answer);
}

/* The drive that was started last opens what its own key-encryption key wrapped, and nothing else. */
static void check_own_kek(void)
{
    uint8_t frame[46] = {0x0E, 1, 0, 0, 1, 0xAA};
    manage(1, 1);
    wrap(kek, frame + 6);
    uint16_t answer = ask_frame(frame, sizeof frame);
    CHECK(answer == TUFFALEEN_INTEGRITY_FAILED, "wrapped for the drive before: %04X", answer);
    memset(frame + 6, 0, 40);
    wrap(image + TUFFALEEN_KEK_AT, frame + 6);
    answer = ask_frame(frame, sizeof frame);
    CHECK(answer == TUFFALEEN_DONE, "wrapped for this drive: %04X", answer);
}

static void check_other_keks(void)
{
    check_other_kek(0, 0, TUFFALEEN_DONE);
    check_own_kek();
    for (int off = -1; off <= 1; off += 2) {
        check_other_kek(off, 0, TUFFALEEN_UNSOUND_STATE);
        check_other_kek(0, off, TUFFALEEN_STORE_LENGTH);
        check_other_kek(off, off, TUFFALEEN_STORE_LENGTH);
    }
}

static void check_output(void)
{
    size_t lines, two = 2 * TUFFALEEN_ANSWER_BYTES;
    const uint8_t *text = (const uint8_t *)"09\n09\n";
    start();
    uint16_t answer = ask("09");
    CHECK(answer == TUFFALEEN_DONE && written == TUFFALEEN_ANSWER_BYTES, "Get Features: %04X, %d bytes", answer,
          (int)written);
    answer = tuffaleen_line(image, TUFFALEEN_IMAGE_BYTES, marks, TUFFALEEN_MARKS_BYTES, text, 2, out,
                            TUFFALEEN_ANSWER_BYTES - 1, &written);
    CHECK(answer == TUFFALEEN_OUTPUT_TOO_SHORT && written == 0, "an output too short: %04X", answer);
    answer = tuffaleen_session(image, TUFFALEEN_IMAGE_BYTES, marks, TUFFALEEN_MARKS_BYTES, text, 6, out, two, &lines,
                               &written);
    CHECK(answer == TUFFALEEN_DONE && lines == 2 && written == two, "a session of two lines: %04X", answer);
    answer = tuffaleen_session(image, TUFFALEEN_IMAGE_BYTES, marks, TUFFALEEN_MARKS_BYTES, text, 6, out, two - 1,
                               &lines, &written);
    CHECK(answer == TUFFALEEN_OUTPUT_TOO_SHORT && lines == 0 && written == 0,
          "a session with an output too short: %04X", answer);
}

static void check_discovery_output(void)
{
    size_t lines, both = TUFFALEEN_DISCOVERY_BYTES + TUFFALEEN_ANSWER_BYTES;
    const uint8_t *text = (const uint8_t *)"0C\n09";
    start();
    uint16_t answer = ask_in(TUFFALEEN_DISCOVERY_BYTES, "0C", 2);
    CHECK(answer == TUFFALEEN_DONE && written == TUFFALEEN_DISCOVERY_BYTES, "discovery: %04X, %d bytes", answer,
          (int)written);
    answer = ask_in(TUFFALEEN_DISCOVERY_BYTES - 1, "0C", 2);
    CHECK(answer == TUFFALEEN_OUTPUT_TOO_SHORT && written == 0, "discovery, an output too short: %04X", answer);
    answer = tuffaleen_session(image, TUFFALEEN_IMAGE_BYTES, marks, TUFFALEEN_MARKS_BYTES, text, 5, out, both, &lines,
                               &written);
    CHECK(answer == TUFFALEEN_DONE && lines == 2 && written == both, "a session with discovery: %04X", answer);
    answer = tuffaleen_session(image, TUFFALEEN_IMAGE_BYTES, marks, TUFFALEEN_MARKS_BYTES, text, 5, out, both - 1,
                               &lines, &written);
    CHECK(answer == TUFFALEEN_OUTPUT_TOO_SHORT && lines == 0 && written == 0,
          "a session with discovery, an output too short: %04X", answer);
}

static void check_line_length(void)
{
    static char digits[ROOM];
    memset(digits, '0', ROOM);
    start();
    uint16_t answer = ask_text(digits, TUFFALEEN_LINE_BYTES);
    CHECK(answer == TUFFALEEN_UNKNOWN_KIND, "the longest line: %04X", answer);
    answer = ask_text(digits, TUFFALEEN_LINE_BYTES + 2);
    CHECK(answer == TUFFALEEN_NOT_A_FRAME_LINE, "two digits above the longest line: %04X", answer);
}

/* Without a message no frame has more than 140 digits; longer lines are read all the same. */
static void check_line_without_message(void)
{
    static const struct { size_t len; uint16_t answer; } lines[] = {
        {138, TUFFALEEN_WRONG_FRAME_LENGTH},
        {142, TUFFALEEN_WRONG_FRAME_LENGTH},
        {TUFFALEEN_LINE_BYTES, TUFFALEEN_WRONG_FRAME_LENGTH},
        {TUFFALEEN_LINE_BYTES + 2, TUFFALEEN_NOT_A_FRAME_LINE},
        {140, TUFFALEEN_DONE},
    };
    static char digits[ROOM];
    memset(digits, '0', ROOM);
    memcpy(digits, "04010000" UID_16 UID_16 KEY_1, 140);
    start();
    manage(1, 1);
    ask("03010000" UID_16 KEY_1);
    for (size_t i = 0; i < sizeof lines / sizeof *lines; i++) {
        uint16_t answer = ask_text(digits, lines[i].len);
        CHECK(answer == lines[i].answer, "a replace of %d digits: %04X", (int)lines[i].len, answer);
    }
}

/* A wrapped load with a KeyUID of one byte has 92 digits; what it brings is the key inside. */
static void check_wrapped_line(void)
{
    static const struct { size_t len; uint16_t answer; } lines[] = {
        {8, TUFFALEEN_WRONG_FRAME_LENGTH},
        {76, TUFFALEEN_WRONG_FRAME_LENGTH}, /* as long as with a bare key */
        {90, TUFFALEEN_WRONG_FRAME_LENGTH},
        {94, TUFFALEEN_WRONG_FRAME_LENGTH},
        {TUFFALEEN_LINE_BYTES, TUFFALEEN_WRONG_FRAME_LENGTH},
        {TUFFALEEN_LINE_BYTES + 2, TUFFALEEN_NOT_A_FRAME_LINE},
        {92, TUFFALEEN_DONE},
    };
    static char digits[ROOM];
    uint8_t slot[49] = {1, 0xAA};
    lay_digits(slot + 17, RFC_KEY);
    memset(digits, '0', ROOM);
    memcpy(digits, "0E010000" "01AA" RFC_WRAPPED, 92);
    start();
    manage(1, 1);
    await_as_now();
    lay(awaited_image, TUFFALEEN_SLOT_AT(1, 0), slot, sizeof slot);
    for (size_t i = 0; i < sizeof lines / sizeof *lines; i++) {
        uint16_t answer = ask_text(digits, lines[i].len);
        CHECK(answer == lines[i].answer, "a wrapped load of %d digits: %04X", (int)lines[i].len, answer);
    }
    CHECK(as_awaited(), "the slot that a wrapped load brings");
}

/* The longest message has 504 bytes: one with a KeyUID of 16, and at its end an item of 8 bytes and 88 that nothing
 * asks for. With bytes behind it, it is no message. */
static void check_longest_message(void)
{
    static const struct { size_t digits; uint16_t answer; } lines[] = {
        {TUFFALEEN_LINE_BYTES + 2, TUFFALEEN_NOT_A_FRAME_LINE},
        {TUFFALEEN_LINE_BYTES, TUFFALEEN_NOT_A_MESSAGE},
        {2 * (4 + 504) + 2, TUFFALEEN_NOT_A_MESSAGE},
        {2 * (4 + 504) - 2, TUFFALEEN_NOT_A_MESSAGE},
        {2 * (4 + 504), TUFFALEEN_DONE},
    };
    static uint8_t frame[ROOM];
    uint8_t slot[49];
    lay_slot(1, 15, slot);
    start();
    manage(1, 16);
    await_as_now();
    lay(awaited_image, TUFFALEEN_SLOT_AT(1, 15), slot, sizeof slot);
    write_message(1, 15, slot, 16, 32, TUFFALEEN_MESSAGE_BYTES);
    size_t end = lay_message_frame(frame, 1, 15);
    memcpy(frame + end, (uint8_t[]){0x54, 0x00, 0x01, 0x08, 0, 0, 0, 88}, 8);
    memcpy(frame + 4 + 4, (uint8_t[]){0, 0, 496 >> 8, 496 & 0xFF}, 4);
    for (size_t i = 0; i < sizeof lines / sizeof *lines; i++) {
        uint16_t answer = ask_frame(frame, lines[i].digits / 2);
        CHECK(answer == lines[i].answer, "a message in a line of %d digits: %04X", (int)lines[i].digits, answer);
    }
    CHECK(as_awaited(), "the slot that the longest message brings");
}

static void check_counts(void)
{
    for (int ns = 1; ns <= 4; ns++) {
        start();
        await_as_now();
        manage(ns, 7 + ns);
        lay(awaited_image, TUFFALEEN_COUNTS_AT + ns - 1, (uint8_t[]){7 + ns}, 1);
        CHECK(as_awaited(), "the tag count of namespace %d", ns);
    }
}

static void check_lock_behaviour(int partition, int field, const char *how)
{
    uint16_t answer = ask_frame((uint8_t[]){0x0A, partition}, 2);
    CHECK(answer == (field == 1 ? TUFFALEEN_DONE : TUFFALEEN_BOOT_WRITE_LOCKED),
          "boot write to partition %d, lock %d %s: %04X", partition, field, how, answer);
    answer = ask_frame((uint8_t[]){0x08, 1 << 3 * partition, 0, 0, 0}, 5);
    CHECK(answer == (field == 3 ? TUFFALEEN_LOCK_NOT_CHANGEABLE : TUFFALEEN_DONE),
          "unlocking partition %d, lock %d %s: %04X", partition, field, how, answer);
}

/* `field` is what Dword 11 asks for, `state` what the header calls it. */
static void check_lock(int partition, int field, uint8_t state)
{
    start();
    await_as_now();
    uint16_t answer = ask_frame((uint8_t[]){0x08, field << 3 * partition, 0, 0, 0}, 5);
    lay(awaited_image, TUFFALEEN_LOCKS_AT + partition, &state, 1);
    CHECK(answer == TUFFALEEN_DONE && as_awaited(), "the lock of partition %d, set to %d: %04X", partition, field,
          answer);
    check_lock_behaviour(partition, field, "set");
    start();
    lay(image, TUFFALEEN_LOCKS_AT + partition, &state, 1);
    check_lock_behaviour(partition, field, "laid in the image");
}

static void check_locks(void)
{
    for (int partition = 0; partition < 2; partition++) {
        check_lock(partition, 1, TUFFALEEN_WRITE_UNLOCKED);
        check_lock(partition, 2, TUFFALEEN_WRITE_LOCKED);
        check_lock(partition, 3, TUFFALEEN_WRITE_LOCKED_UNTIL_POWER_CYCLE);
    }
}

static int check_slots(void (*load_slot)(int, int, uint8_t[49]))
{
    int seen = 0;
    for (int ns = 1; ns <= 4; ns++) {
        start();
        manage(ns, 128);
        manage(ns % 4 + 1, 128);
        for (int tag = 0; tag < 128; tag++) {
            uint8_t slot[49];
            await_as_now();
            load_slot(ns, tag, slot);
            lay(awaited_image, TUFFALEEN_SLOT_AT(ns, tag), slot, sizeof slot);
            CHECK(as_awaited(), "the slot of namespace %d, tag %d", ns, tag);
            seen++;
        }
    }
    CHECK(TUFFALEEN_SLOT_AT(1, 0) == TUFFALEEN_SLOTS_AT, "the first slot is not at SLOTS_AT");
    CHECK(TUFFALEEN_SLOT_AT(5, 0) == TUFFALEEN_KEK_AT, "the key-encryption key is not behind the last slot");
    CHECK(TUFFALEEN_KEK_AT + TUFFALEEN_KEK_BYTES == TUFFALEEN_IMAGE_BYTES,
          "the image does not end with its key-encryption key");
    CHECK(TUFFALEEN_SLOT_BYTES == 49, "a slot has %d bytes", TUFFALEEN_SLOT_BYTES);
    return seen;
}

static void check_cleared_slots(void)
{
    for (int ns = 1; ns <= 4; ns++) {
        uint8_t slot[49];
        start();
        manage(ns, 128);
        await_as_now();
        for (int tag = 0; tag < 128; tag++)
            load(ns, tag, slot);
        for (int tag = 0; tag < 128; tag++)
            ask_frame((uint8_t[]){0x05, ns, tag, 0}, 4);
        CHECK(as_awaited(), "the emptied slots of namespace %d", ns);
    }
}

/* A mark is what the slot begins with: the KeyUID's length and all of it, padded. */
static void check_mark(int ns, int block, const uint8_t slot[49])
{
    uint8_t frame[65] = {0x07, 0x01};
    frame[5] = ns;
    frame[41] = block;
    frame[51] = 1;
    frame[53] = slot[0] - 1;
    await_as_now();
    uint16_t answer = ask_frame(frame, sizeof frame);
    lay(awaited_marks, TUFFALEEN_MARK_AT(ns, block), slot, 17);
    CHECK(answer == TUFFALEEN_DONE && as_awaited(), "the mark of namespace %d, block %d: %04X", ns, block, answer);
}

static int check_marks(void)
{
    int seen = 0;
    for (int ns = 1; ns <= 4; ns++) {
        uint8_t slots[16][49];
        start();
        manage(ns, 16);
        for (int tag = 0; tag < 16; tag++)
            load(ns, tag, slots[tag]);
        for (int block = 0; block < 256; block++) {
            check_mark(ns, block, slots[block % 16]);
            seen++;
        }
    }
    CHECK(TUFFALEEN_MARK_AT(5, 0) == TUFFALEEN_MARKS_BYTES, "the store does not end with its last mark");
    CHECK(TUFFALEEN_MARK_BYTES == 17, "a mark has %d bytes", TUFFALEEN_MARK_BYTES);
    return seen;
}

/* One byte laid in an image of 128 and 127 tags, with slot 0 of namespace 1 loaded and all others empty. */
static const struct { size_t at; uint8_t byte; uint16_t answer; } laid[] = {
    {TUFFALEEN_COUNTS_AT + 0, 129, TUFFALEEN_UNSOUND_STATE},
    {TUFFALEEN_COUNTS_AT + 0, 0, TUFFALEEN_UNSOUND_STATE},
    {TUFFALEEN_COUNTS_AT + 1, 128, TUFFALEEN_DONE},
    {TUFFALEEN_COUNTS_AT + 2, 1, TUFFALEEN_DONE},
    {TUFFALEEN_COUNTS_AT + 3, 2, TUFFALEEN_UNSOUND_STATE},
    {TUFFALEEN_COUNTS_AT + 3, 128, TUFFALEEN_UNSOUND_STATE},
    {TUFFALEEN_LOCKS_AT + 0, 0, TUFFALEEN_UNSOUND_STATE},
    {TUFFALEEN_LOCKS_AT + 1, 4, TUFFALEEN_UNSOUND_STATE},
    {TUFFALEEN_SLOT_AT(1, 0), 16, TUFFALEEN_DONE},
    {TUFFALEEN_SLOT_AT(1, 0), 17, TUFFALEEN_UNSOUND_STATE},
    {TUFFALEEN_SLOT_AT(1, 0) + 1, 1, TUFFALEEN_DONE},
    {TUFFALEEN_SLOT_AT(1, 0) + 2, 1, TUFFALEEN_UNSOUND_STATE},
    {TUFFALEEN_SLOT_AT(1, 1) + 48, 1, TUFFALEEN_UNSOUND_STATE},
    {TUFFALEEN_SLOT_AT(1, 127) + 1, 1, TUFFALEEN_UNSOUND_STATE},
    {TUFFALEEN_SLOT_AT(2, 126), 1, TUFFALEEN_DONE},
    {TUFFALEEN_SLOT_AT(2, 127), 1, TUFFALEEN_UNSOUND_STATE},
    {TUFFALEEN_SLOT_AT(4, 127), 1, TUFFALEEN_UNSOUND_STATE},
    {TUFFALEEN_SLOT_AT(4, 127) + 48, 1, TUFFALEEN_UNSOUND_STATE},
    {TUFFALEEN_KEK_AT, 1, TUFFALEEN_DONE},
    {TUFFALEEN_KEK_AT + 31, 255, TUFFALEEN_DONE},
};

static void check_soundness(void)
{
    for (size_t i = 0; i < sizeof laid / sizeof *laid; i++) {
        uint8_t slot[49];
        start();
        manage(1, 128);
        manage(2, 127);
        load(1, 0, slot);
        lay(image, laid[i].at, &laid[i].byte, 1);
        uint16_t answer = ask("0B00");
        CHECK(answer == laid[i].answer, "%d laid at byte %d of the image: %04X", laid[i].byte, (int)laid[i].at,
              answer);
    }
}

/* Lines of every kind but 0D, each accepted where namespace 1 has 128 tags and no keys; they end in such a state. */
static const char *const every_kind[] = {
    "010303", "0203", "0301000001AA" KEY_1, "0401000001AA01BB" KEY_2, "0E010100" "01CC" RFC_WRAPPED,
    IO("01", "00", "09", "00"), IO("02", "00", "09", "00"), "05010000", "0601", "0801000000", "09", "0A00", "0B00",
    "0B01", "0C",
};

static int kek_stands(void)
{
    return TUFFALEEN_KEK_AT <= ROOM - sizeof kek && memcmp(image + TUFFALEEN_KEK_AT, kek, 32) == 0;
}

static void check_kek_after_session(const char *text, size_t len, size_t out_len, uint16_t awaited)
{
    size_t lines;
    uint16_t answer = tuffaleen_session(image, TUFFALEEN_IMAGE_BYTES, marks, TUFFALEEN_MARKS_BYTES,
                                        (const uint8_t *)text, len, out, out_len, &lines, &written);
    CHECK(answer == awaited && kek_stands(), "the key-encryption key after a session of %d lines: %04X", (int)lines,
          answer);
}

/* Line by line, then all as one session, with room and without. */
static void check_kek_kept(void)
{
    static char text[ROOM];
    size_t len = 0;
    uint8_t slot[49];
    start();
    manage(1, 128);
    for (size_t i = 0; i < sizeof every_kind / sizeof *every_kind; i++) {
        size_t line_len = strlen(every_kind[i]);
        uint16_t answer = ask_in(ROOM, every_kind[i], line_len);
        CHECK(answer == TUFFALEEN_DONE && kek_stands(), "the key-encryption key after %s: %04X", every_kind[i], answer);
        memcpy(text + len, every_kind[i], line_len);
        len += line_len;
        text[len++] = '\n';
    }
    load_by_message(1, 127, slot);
    CHECK(kek_stands(), "the key-encryption key after a load by message");
    check_kek_after_session(text, len, ROOM, TUFFALEEN_DONE);
    check_kek_after_session(text, len, 1, TUFFALEEN_OUTPUT_TOO_SHORT);
}

/* Whoever has the image may wrap and open with the key that lies there. */
static void check_kek_lent(void)
{
    uint8_t bytes[40] = {0}, awaited[40];
    lay_digits(bytes + 8, RFC_KEY);
    lay_digits(awaited, RFC_WRAPPED);
    start();
    await_as_now();
    wrap(image + TUFFALEEN_KEK_AT, bytes);
    int same = memcmp(bytes, awaited, 40) == 0;
    uint16_t answer = unwrap(image + TUFFALEEN_KEK_AT, bytes);
    CHECK(same && answer == TUFFALEEN_DONE && as_awaited(), "a key wrapped and opened with the image's: %04X", answer);
}

/* Asked before each line below. Of three tags in namespace 1 two are loaded; blocks 0 to 9 are written under AA. */
static const char *const before[] = {
    "010103", "010280", "0301000001AA" KEY_1, "0301010001BB" KEY_2, IO("01", "00", "09", "00"), "0803000000",
};

#define OF(name) #name, name

/* A load to namespace 1, tag 2, by a message whose KeyUID is empty: item by item, tag, type and length, then the value
 * with its padding. */
#define EMPTY_KEY_UID \
    "0D010200" "4200780100000180" /* Request Message */ \
    "4200770100000038" "4200690100000020" /* Request Header, Protocol Version */ \
    "42006A0200000004" "0000000200000000" "42006B0200000004" "0000000000000000" /* 2, 0 */ \
    "42000D0200000004" "0000000100000000" /* Batch Count */ \
    "42000F0100000138" "42005C0500000004" "0000002A00000000" /* Batch Item, Operation: Import */ \
    "4200790100000120" "4200940700000000" /* Request Payload, Unique Identifier */ \
    "4200570500000004" "0000000200000000" /* Object Type: Symmetric Key */ \
    "42012501000000B0" "42002B0100000030" /* Attributes, Cryptographic Parameters */ \
    "4200830500000004" "0000000300000000" /* Key Role Type: DEK */ \
    "4200280500000004" "0000000300000000" "42002A0200000004" "0000010000000000" /* AES, 256 */ \
    "4200080100000038" "42009D0700000007" "5443472D53574700" /* Attribute: TCG-SWG */ \
    "42000A070000000B" "4E616D65737061636549440000000000" /* NamespaceID */ \
    "42000B0200000004" "0000000100000000" \
    "4200080100000030" "42009D0700000007" "5443472D53574700" /* Attribute: TCG-SWG */ \
    "42000A0700000006" "4B65795461670000" "42000B0200000004" "0000000200000000" /* KeyTag */ \
    "42008F0100000048" "4200400100000040" "4200420500000004" "0000000100000000" /* Symmetric Key, Key Block, Raw */ \
    "4200450100000028" "4200430800000020" KEY_1 /* Key Value, Key Material */

static const struct { const char *name; uint16_t number; const char *digits, *line; } answers[] = {
    {OF(TUFFALEEN_DONE), "0000", "0B00"},
    {OF(TUFFALEEN_INVALID_OPCODE), "0001", IO("03", "00", "00", "00")},
    {OF(TUFFALEEN_INVALID_FIELD), "0002", "0A02"},
    {OF(TUFFALEEN_INVALID_NAMESPACE), "000B", "0205"},
    {OF(TUFFALEEN_INVALID_KEY_TAG), "0025", "05010300"},
    {OF(TUFFALEEN_INVALID_KEY_TAG), "0025", "0E010300" "01CC" RFC_SPOILT},
    {OF(TUFFALEEN_WRONG_KEY), "0028", IO("02", "09", "00", "01")},
    {OF(TUFFALEEN_BLOCK_RANGE), "0080", IO("02", "FF", "01", "00")},
    {OF(TUFFALEEN_LOCK_NOT_CHANGEABLE), "010E", "0801000000"},
    {OF(TUFFALEEN_BOOT_WRITE_LOCKED), "011E", "0A00"},
    {OF(TUFFALEEN_NOT_A_FRAME_LINE), "0701030100", "0b00"},
    {OF(TUFFALEEN_UNKNOWN_KIND), "0702", "00"},
    {OF(TUFFALEEN_WRONG_FRAME_LENGTH), "0703", "0900"},
    {OF(TUFFALEEN_KEY_UID_LENGTH), "0704", "0301020000"},
    {OF(TUFFALEEN_ALREADY_MANAGED), "0705", "010101"},
    {OF(TUFFALEEN_NOT_MANAGED), "0706", "0603"},
    {OF(TUFFALEEN_TAG_COUNT), "0707", "010300"},
    {OF(TUFFALEEN_POOL_TOO_SMALL), "0708", "010380"},
    {OF(TUFFALEEN_SLOT_OCCUPIED), "0709", "0301000001BB" KEY_2},
    {OF(TUFFALEEN_SLOT_EMPTY), "070A", "05010200"},
    {OF(TUFFALEEN_OLD_KEY_UID), "070B", "0401000001BB01CC" KEY_1},
    {OF(TUFFALEEN_OTHER_KEY), "070C", "0301020001AA" KEY_2},
    {OF(TUFFALEEN_INTEGRITY_FAILED), "0710", "0E010000" "01AA" RFC_SPOILT},
    {OF(TUFFALEEN_INTEGRITY_FAILED), "0710", "0E010200" "01CC" RFC_SPOILT},
    {OF(TUFFALEEN_NOT_A_MESSAGE), "0717", "0D010200"},
    {OF(TUFFALEEN_MESSAGE_KEY_UID), "0718", EMPTY_KEY_UID},
};

/* Lines of zeros that are no frame line; where `bad` is not -1, a letter stands at that place. */
static const struct { const char *name; int fault, literal, len, bad, place; } faults[] = {
    {OF(TUFFALEEN_LINE_EMPTY), 1, 0, -1, 0},
    {OF(TUFFALEEN_LINE_TOO_LONG), 2, TUFFALEEN_LINE_BYTES + 1, -1, 0},
    {OF(TUFFALEEN_LINE_TOO_LONG), 2, TUFFALEEN_LINE_BYTES + 1, 0, 0},
    {OF(TUFFALEEN_LINE_TOO_LONG), 2, TUFFALEEN_LINE_BYTES + 2, TUFFALEEN_LINE_BYTES + 1, 0},
    {OF(TUFFALEEN_LINE_BAD_DIGIT), 3, 1, 0, 0},
    {OF(TUFFALEEN_LINE_BAD_DIGIT), 3, 2, 1, 1},
    {OF(TUFFALEEN_LINE_BAD_DIGIT), 3, 262, 260, 260},
    {OF(TUFFALEEN_LINE_BAD_DIGIT), 3, TUFFALEEN_LINE_BYTES, TUFFALEEN_LINE_BYTES - 1, TUFFALEEN_LINE_BYTES - 1},
    {OF(TUFFALEEN_LINE_ODD), 4, 1, -1, 0},
    {OF(TUFFALEEN_LINE_ODD), 4, TUFFALEEN_LINE_BYTES - 1, -1, 0},
};

/* The answers that refuse a call: for them the buffers are of other lengths, and no digits are written. */
static const struct { const char *name; uint16_t number, literal; int image_off, marks_off, out_off; } calls[] = {
    {OF(TUFFALEEN_STORE_LENGTH), 0x070D, -1, -1, 0},
    {OF(TUFFALEEN_UNSOUND_STATE), 0x070E, -1, 0, 0},
    {OF(TUFFALEEN_OUTPUT_TOO_SHORT), 0x070F, -1, -1, -1},
};

static int check_line_answers(void)
{
    int seen = 0;
    for (size_t i = 0; i < sizeof answers / sizeof *answers; i++) {
        start();
        for (size_t k = 0; k < sizeof before / sizeof *before; k++)
            CHECK(ask(before[k]) == TUFFALEEN_DONE, "line %d before the answers", (int)k);
        uint16_t answer = ask(answers[i].line);
        CHECK(answer == answers[i].number, "%s is %04X, the library answers %04X", answers[i].name, answers[i].number,
              answer);
        size_t len = strlen(answers[i].digits);
        CHECK(written == len + 1 && memcmp(out, answers[i].digits, len) == 0 && out[len] == '\n',
              "%s is written as %.*s, not %s", answers[i].name, (int)len, (const char *)out, answers[i].digits);
        CHECK(kek_stands(), "the key-encryption key after the answer %s", answers[i].digits);
        seen += i == 0 || strcmp(answers[i - 1].digits, answers[i].digits) < 0;
    }
    return seen;
}

/* The byte that two digits of an answer are. */
static int answer_byte(size_t at)
{
    return byte_of((const char *)out + at);
}

/* Asks a line of zeros with a letter at a place, if that is not -1, and tells whether it is no frame line. */
static int ask_bad(int len, int bad)
{
    static char line[ROOM];
    memset(line, '0', ROOM);
    if (bad >= 0)
        line[bad] = 'G';
    memset(out, UNTOUCHED, ROOM);
    return ask_text(line, len) == TUFFALEEN_NOT_A_FRAME_LINE && written == 11 && out[10] == '\n' &&
           out[11] == UNTOUCHED;
}

/* Tells how many names of the header were seen. */
static int check_faults(void)
{
    int seen = 0;
    start();
    for (size_t i = 0; i < sizeof faults / sizeof *faults; i++) {
        CHECK(ask_bad(faults[i].len, faults[i].bad), "a line of %d, bad at %d: %d bytes", faults[i].len, faults[i].bad,
              (int)written);
        int reason = answer_byte(4), place = answer_byte(6) | answer_byte(8) << 8;
        CHECK(reason == faults[i].fault, "%s is %d, the library writes %d", faults[i].name, faults[i].fault, reason);
        CHECK(reason == faults[i].literal && place == faults[i].place, "a line of %d, bad at %d: reason %d, place %d",
              faults[i].len, faults[i].bad, reason, place);
        seen += i == 0 || faults[i - 1].literal < faults[i].literal;
    }
    return seen;
}

/* Every place of the longest line, and of one that is odd. */
static void check_places(void)
{
    start();
    for (int len = TUFFALEEN_LINE_BYTES - 1; len <= TUFFALEEN_LINE_BYTES; len++) {
        for (int bad = 0; bad < len; bad++) {
            int told = ask_bad(len, bad), place = answer_byte(6) | answer_byte(8) << 8;
            CHECK(told && answer_byte(4) == 3 && place == bad,
                  "a line of %d, bad at %d: place %d", len, bad, place);
        }
    }
}

static int check_call_answers(void)
{
    int seen = 0;
    for (size_t i = 0; i < sizeof calls / sizeof *calls; i++) {
        start();
        uint16_t answer = tuffaleen_line(image, TUFFALEEN_IMAGE_BYTES + calls[i].image_off,
                                         marks, TUFFALEEN_MARKS_BYTES + calls[i].marks_off, (const uint8_t *)"09", 2,
                                         out, TUFFALEEN_ANSWER_BYTES + calls[i].out_off, &written);
        CHECK(answer == calls[i].number, "%s is %04X, the library answers %04X", calls[i].name, calls[i].number,
              answer);
        CHECK(answer == calls[i].literal && written == 0, "%s is answered %04X with %d bytes", calls[i].name, answer,
              (int)written);
        seen += i == 0 || calls[i - 1].literal < calls[i].literal;
    }
    return seen;
}

/* Where docs/DISCOVERY.md has each field: its first byte, its lowest bit, how many bits. The vendor specific bytes are
 * not here, for they have one name. */
#define HEADER 48
#define TPER(byte) (HEADER + (byte))
#define KEY_PER_IO(byte) (TPER(16) + (byte))

static const struct { const char *name; int place, byte, bit, bits; } laid_fields[] = {
    {OF(TUFFALEEN_DATA_STRUCTURE_REVISION), 4, 0, 32},
    {OF(TUFFALEEN_TPER_VERSION), TPER(2), 4, 4},
    {OF(TUFFALEEN_COM_ID_MGMT_SUPPORTED), TPER(4), 6, 1},
    {OF(TUFFALEEN_STREAMING_SUPPORTED), TPER(4), 4, 1},
    {OF(TUFFALEEN_BUFFER_MGMT_SUPPORTED), TPER(4), 3, 1},
    {OF(TUFFALEEN_ACK_NACK_SUPPORTED), TPER(4), 2, 1},
    {OF(TUFFALEEN_ASYNC_SUPPORTED), TPER(4), 1, 1},
    {OF(TUFFALEEN_SYNC_SUPPORTED), TPER(4), 0, 1},
    {OF(TUFFALEEN_FEATURE_DESCRIPTOR_VERSION), KEY_PER_IO(2), 4, 4},
    {OF(TUFFALEEN_SSC_MINOR_VERSION), KEY_PER_IO(2), 0, 4},
    {OF(TUFFALEEN_PROTOCOL_01_BASE_COM_ID), KEY_PER_IO(4), 0, 16},
    {OF(TUFFALEEN_PROTOCOL_01_NUMBER_OF_COM_IDS), KEY_PER_IO(6), 0, 16},
    {OF(TUFFALEEN_PROTOCOL_03_BASE_COM_ID), KEY_PER_IO(8), 0, 16},
    {OF(TUFFALEEN_PROTOCOL_03_NUMBER_OF_COM_IDS), KEY_PER_IO(10), 0, 16},
    {OF(TUFFALEEN_INITIAL_PIN_INDICATOR), KEY_PER_IO(12), 0, 8},
    {OF(TUFFALEEN_BEHAVIOR_OF_PIN_UPON_REVERT), KEY_PER_IO(13), 0, 8},
    {OF(TUFFALEEN_NUMBER_OF_ADMIN_AUTHORITIES), KEY_PER_IO(14), 0, 16},
    {OF(TUFFALEEN_REPLAY_PROTECTION_ENABLED), KEY_PER_IO(16), 5, 1},
    {OF(TUFFALEEN_REPLAY_PROTECTION_SUPPORTED), KEY_PER_IO(16), 4, 1},
    {OF(TUFFALEEN_INCORRECT_KEY_DETECTION_SUPPORTED), KEY_PER_IO(16), 3, 1},
    {OF(TUFFALEEN_SHARED_TWEAK_KEY_REQUIRED), KEY_PER_IO(16), 2, 1},
    {OF(TUFFALEEN_SCOPE), KEY_PER_IO(16), 1, 1},
    {OF(TUFFALEEN_ENABLED), KEY_PER_IO(16), 0, 1},
    {OF(TUFFALEEN_MAXIMUM_KEY_UID_LENGTH), KEY_PER_IO(17), 0, 16},
    {OF(TUFFALEEN_KMIP_KEY_INJECTION_SUPPORTED), KEY_PER_IO(19), 0, 1},
    {OF(TUFFALEEN_RSA_OAEP_SUPPORTED), KEY_PER_IO(21), 2, 1},
    {OF(TUFFALEEN_AES_GCM_SUPPORTED), KEY_PER_IO(21), 1, 1},
    {OF(TUFFALEEN_AES_KW_SUPPORTED), KEY_PER_IO(21), 0, 1},
    {OF(TUFFALEEN_AES_256_WRAPPING_KEY_SUPPORTED), KEY_PER_IO(23), 0, 1},
    {OF(TUFFALEEN_RSA4K_WRAPPING_KEY_SUPPORTED), KEY_PER_IO(25), 2, 1},
    {OF(TUFFALEEN_RSA3K_WRAPPING_KEY_SUPPORTED), KEY_PER_IO(25), 1, 1},
    {OF(TUFFALEEN_RSA2K_WRAPPING_KEY_SUPPORTED), KEY_PER_IO(25), 0, 1},
    {OF(TUFFALEEN_PKI_KEK_TRANSPORT_SUPPORTED), KEY_PER_IO(27), 1, 1},
    {OF(TUFFALEEN_PLAINTEXT_KEK_PROVISIONING_SUPPORTED), KEY_PER_IO(27), 0, 1},
    {OF(TUFFALEEN_NUMBER_OF_KEY_ENCRYPTION_KEYS), KEY_PER_IO(32), 0, 32},
    {OF(TUFFALEEN_TOTAL_NUMBER_OF_KEY_TAGS), KEY_PER_IO(36), 0, 32},
    {OF(TUFFALEEN_MAXIMUM_KEY_TAGS_PER_NAMESPACE), KEY_PER_IO(40), 0, 16},
    {OF(TUFFALEEN_NONCE_LENGTH), KEY_PER_IO(42), 0, 8},
};

#define LAID_FIELDS (sizeof laid_fields / sizeof *laid_fields)

/* What the drive's own response has other than 0. */
static const struct { int place; uint32_t number; } own_fields[] = {
    {TUFFALEEN_DATA_STRUCTURE_REVISION, 1},
    {TUFFALEEN_TPER_VERSION, 1},
    {TUFFALEEN_FEATURE_DESCRIPTOR_VERSION, 1},
    {TUFFALEEN_INCORRECT_KEY_DETECTION_SUPPORTED, 1},
    {TUFFALEEN_SHARED_TWEAK_KEY_REQUIRED, 1},
    {TUFFALEEN_ENABLED, 1},
    {TUFFALEEN_MAXIMUM_KEY_UID_LENGTH, 16},
    {TUFFALEEN_KMIP_KEY_INJECTION_SUPPORTED, 1},
    {TUFFALEEN_AES_KW_SUPPORTED, 1},
    {TUFFALEEN_AES_256_WRAPPING_KEY_SUPPORTED, 1},
    {TUFFALEEN_NUMBER_OF_KEY_ENCRYPTION_KEYS, 1},
    {TUFFALEEN_TOTAL_NUMBER_OF_KEY_TAGS, 256},
    {TUFFALEEN_MAXIMUM_KEY_TAGS_PER_NAMESPACE, 128},
};

/* The bits of a response that are some field's, and the places that were awaited with a number other than 0. */
static uint8_t bits_told[KEY_PER_IO(48)], place_seen[NUMBERS];

static void lay_end(size_t end)
{
    memset(response, 0, 3);
    response[3] = end - 4;
}

static size_t lay_feature(size_t at, int code, int len, uint8_t fill)
{
    memset(response + at, fill, 4 + len);
    response[at] = code >> 8;
    response[at + 1] = code & 0xFF;
    response[at + 3] = len;
    return at + 4 + len;
}

/* Features of these lengths, none where it is below 0; all that is free is filled. Tells the response's length. */
static size_t lay_response(int tper_len, int key_per_io_len, uint8_t fill)
{
    size_t end = HEADER;
    memset(response, fill, HEADER);
    if (tper_len >= 0)
        end = lay_feature(end, 0x0001, tper_len, fill);
    if (key_per_io_len >= 0)
        end = lay_feature(end, 0x0305, key_per_io_len, fill);
    lay_end(end);
    return end;
}

static uint16_t discover(size_t len, size_t room)
{
    memset(fields, UNTOUCHED, sizeof fields);
    return tuffaleen_discovery(response, len, fields, room);
}

static void await_number(int place, uint32_t number)
{
    CHECK(place >= 0 && place < NUMBERS, "a place of %d", place);
    if (place >= 0 && place < NUMBERS) {
        awaited_fields[place] = number;
        place_seen[place] |= number != 0;
    }
}

/* Features found or not, in which nothing is set; what is behind the last place stays. */
static void await_found(int tper, int key_per_io)
{
    memset(awaited_fields, UNTOUCHED, sizeof awaited_fields);
    for (int place = 0; place < TUFFALEEN_DISCOVERY_FIELDS; place++)
        await_number(place, 0);
    await_number(TUFFALEEN_TPER_FOUND, tper);
    await_number(TUFFALEEN_KEY_PER_IO_FOUND, key_per_io);
}

static int found_as_awaited(size_t len)
{
    return discover(len, NUMBERS) == TUFFALEEN_DONE && memcmp(fields, awaited_fields, sizeof fields) == 0;
}

static int is_untouched(void)
{
    int same = 1;
    for (size_t i = 0; i < sizeof fields; i++)
        same &= ((const uint8_t *)fields)[i] == UNTOUCHED;
    return same;
}

static void check_discovery_room(void)
{
    size_t len = lay_response(0x0C, 0x2C, 0);
    uint16_t answer = discover(len, TUFFALEEN_DISCOVERY_FIELDS);
    CHECK(answer == TUFFALEEN_DONE, "discovery with room for %d numbers: %04X", TUFFALEEN_DISCOVERY_FIELDS, answer);
    for (size_t cut = 0; cut < 2; cut++) {
        answer = discover(len - cut, TUFFALEEN_DISCOVERY_FIELDS - 1);
        CHECK(answer == TUFFALEEN_OUTPUT_TOO_SHORT && is_untouched(), "discovery with room for %d numbers: %04X",
              TUFFALEEN_DISCOVERY_FIELDS - 1, answer);
    }
}

static void check_own_response(void)
{
    size_t len = 0;
    start();
    ask_in(TUFFALEEN_DISCOVERY_BYTES, "0C", 2);
    for (size_t at = 4; at + 1 < written; at += 2)
        response[len++] = answer_byte(at);
    await_found(1, 1);
    for (size_t i = 0; i < sizeof own_fields / sizeof *own_fields; i++)
        await_number(own_fields[i].place, own_fields[i].number);
    CHECK(len == 112 && found_as_awaited(len), "the fields of the drive's own response");
}

/* Each bit of a field by itself: its place has it, and each other what it has without. */
static void check_field(const char *name, int place, int byte, int bit, int bits)
{
    for (int i = 0; i < bits; i++) {
        size_t at = byte + (bits - 1) / 8 - (bit + i) / 8, len = lay_response(0x0C, 0x2C, 0);
        response[at] |= 1 << (bit + i) % 8;
        bits_told[at] |= 1 << (bit + i) % 8;
        await_found(1, 1);
        await_number(place, (uint32_t)1 << i);
        CHECK(found_as_awaited(len), "%s at place %d, bit %d", name, place, i);
    }
}

/* What is no field, no length and no feature's code. */
static void check_reserved_bits(void)
{
    static const uint8_t others[] = {
        0, 1, 2, 3, TPER(0), TPER(1), TPER(3), KEY_PER_IO(0), KEY_PER_IO(1), KEY_PER_IO(3),
    };
    for (size_t i = 0; i < sizeof others; i++)
        bits_told[others[i]] = 0xFF;
    for (int bit = 0; bit < 8 * KEY_PER_IO(48); bit++) {
        size_t len = lay_response(0x0C, 0x2C, 0);
        if (bits_told[bit / 8] >> bit % 8 & 1)
            continue;
        response[bit / 8] |= 1 << bit % 8;
        await_found(1, 1);
        CHECK(found_as_awaited(len), "bit %d of byte %d is told, and is reserved", bit % 8, bit / 8);
    }
}

/* Tells how many names of the header were seen. */
static int check_fields(void)
{
    int places = 0;
    for (size_t i = 0; i < LAID_FIELDS; i++)
        check_field(laid_fields[i].name, laid_fields[i].place, laid_fields[i].byte, laid_fields[i].bit,
                    laid_fields[i].bits);
    for (int i = 0; i < 32; i++)
        check_field("TUFFALEEN_VENDOR_SPECIFIC", TUFFALEEN_VENDOR_SPECIFIC + i, 16 + i, 0, 8);
    check_reserved_bits();
    for (int place = 0; place < NUMBERS; place++)
        places += place_seen[place];
    CHECK(places == TUFFALEEN_DISCOVERY_FIELDS, "%d places, and the header has %d", places,
          TUFFALEEN_DISCOVERY_FIELDS);
    /* The table's, the vendor specific bytes', and the two that tell a feature found. */
    return LAID_FIELDS + 3;
}

/* All bits set, in features that are there, too short, or not there. */
static void check_features(int tper_len, int key_per_io_len)
{
    size_t len = lay_response(tper_len, key_per_io_len, 0xFF);
    int tper = tper_len >= 0x0C, key_per_io = key_per_io_len >= 0x2C;
    await_found(tper, key_per_io);
    for (size_t i = 0; i < LAID_FIELDS; i++) {
        int byte = laid_fields[i].byte;
        if (byte < HEADER || (byte < KEY_PER_IO(0) ? tper : key_per_io))
            await_number(laid_fields[i].place, 0xFFFFFFFF >> (32 - laid_fields[i].bits));
    }
    for (int i = 0; i < 32; i++)
        await_number(TUFFALEEN_VENDOR_SPECIFIC + i, 0xFF);
    CHECK(found_as_awaited(len), "features of lengths %d and %d", tper_len, key_per_io_len);
}

/* What is no response: so many bytes of a whole one, in which the header tells this end. */
static const struct { const char *why; size_t len, end; } no_responses[] = {
    {"shorter than the header", HEADER - 1, HEADER - 1},
    {"the length ends inside the header", KEY_PER_IO(48), HEADER - 1},
    {"the length ends past the data", KEY_PER_IO(48), KEY_PER_IO(49)},
    {"a head runs past the end", KEY_PER_IO(48), TPER(3)},
    {"a feature's length runs past the end", KEY_PER_IO(48), KEY_PER_IO(47)},
};

static int check_no_responses(void)
{
    for (size_t i = 0; i < sizeof no_responses / sizeof *no_responses; i++) {
        lay_response(0x0C, 0x2C, 0);
        lay_end(no_responses[i].end);
        uint16_t answer = discover(no_responses[i].len, TUFFALEEN_DISCOVERY_FIELDS);
        CHECK(answer == TUFFALEEN_NOT_A_RESPONSE, "TUFFALEEN_NOT_A_RESPONSE is %04X, the library answers %04X: %s",
              TUFFALEEN_NOT_A_RESPONSE, answer, no_responses[i].why);
        CHECK(answer == 0x0716 && is_untouched(), "no response is answered %04X: %s", answer, no_responses[i].why);
    }
    return 1;
}

static int is_blank(size_t from)
{
    int same = 1;
    for (size_t i = from; i < ROOM; i++)
        same &= out[i] == UNTOUCHED;
    return same;
}

/* A KeyUID of 8 bytes makes the shorter message, one of 9 the longer; the room is the same. */
static void check_message_room(void)
{
    uint8_t slot[49];
    lay_slot(1, 15, slot);
    for (size_t uid_len = 8; uid_len <= 9; uid_len++) {
        uint16_t answer = write_message(1, 15, slot, uid_len, 32, TUFFALEEN_MESSAGE_BYTES);
        CHECK(answer == TUFFALEEN_DONE && written == (uid_len == 8 ? 400 : 408) && is_blank(written),
              "a message with room for %d bytes: %04X, %d bytes", TUFFALEEN_MESSAGE_BYTES, answer, (int)written);
        answer = write_message(1, 15, slot, uid_len, 32, TUFFALEEN_MESSAGE_BYTES - 1);
        CHECK(answer == TUFFALEEN_OUTPUT_TOO_SHORT && written == 0 && is_blank(0),
              "a message with room for %d bytes: %04X, %d bytes", TUFFALEEN_MESSAGE_BYTES - 1, answer, (int)written);
    }
}

/* What the writer refuses, in the order in which it looks: where several hold, the first is told. */
static const struct { uint16_t answer; size_t uid_len, key_len; int out_off; } no_messages[] = {
    {TUFFALEEN_OUTPUT_TOO_SHORT, 0, 31, -1},
    {TUFFALEEN_OUTPUT_TOO_SHORT, 1, 32, -TUFFALEEN_MESSAGE_BYTES},
    {TUFFALEEN_NOT_A_MESSAGE, 0, 31, 0},
    {TUFFALEEN_NOT_A_MESSAGE, 17, 33, 1},
    {TUFFALEEN_NOT_A_MESSAGE, 1, 0, 0},
    {TUFFALEEN_MESSAGE_KEY_UID, 0, 32, 0},
    {TUFFALEEN_MESSAGE_KEY_UID, 17, 32, 1},
};

static void check_no_messages(void)
{
    uint8_t slot[49];
    lay_slot(1, 15, slot);
    for (size_t i = 0; i < sizeof no_messages / sizeof *no_messages; i++) {
        size_t uid_len = no_messages[i].uid_len, key_len = no_messages[i].key_len;
        size_t out_len = TUFFALEEN_MESSAGE_BYTES + no_messages[i].out_off;
        uint16_t answer = write_message(1, 15, slot, uid_len, key_len, out_len);
        CHECK(answer == no_messages[i].answer && written == 0 && is_blank(0),
              "a message of a KeyUID of %d and a key of %d, room off by %d: %04X, %d bytes", (int)uid_len, (int)key_len,
              no_messages[i].out_off, answer, (int)written);
    }
}

/* Where a key-encryption key and 40 bytes lie to be worked on. Neither is aligned, and around them nothing changes. */
#define OPENER_AT 101
#define BYTES_AT 1001

static uint8_t desk[ROOM], awaited_desk[ROOM];

static void lay_desk(const uint8_t opener[32], const uint8_t bytes[40], const uint8_t awaited[40])
{
    memset(desk, UNTOUCHED, ROOM);
    memcpy(desk + OPENER_AT, opener, 32);
    memcpy(awaited_desk, desk, ROOM);
    memcpy(desk + BYTES_AT, bytes, 40);
    memcpy(awaited_desk + BYTES_AT, awaited, 40);
}

static int desk_as_awaited(void)
{
    return memcmp(desk, awaited_desk, ROOM) == 0;
}

/* Key-encryption key, key and wrapped key: that of RFC 3394, and some of tests/model/wrapped-keys.txt, which OpenSSL
 * made. */
static const struct { const char *opener, *key, *wrapped; } wrappings[] = {
    {RFC_KEK, RFC_KEY, RFC_WRAPPED},
    {RFC_KEK, KEY_1, "801B521D957E5A3602BD18A3B11512CC9FB0822DD0D34969123DA8B1DAB7E8072A5BE56EC9B7F4C9"},
    {RFC_KEK, RFC_KEK, "82C693BFF487DB7C31A7F0CC440AD9E37709511B52EFCE48094B4548EEE3CFC2BF7805B51201BC01"},
    {"FFFFFFFFFFFFFFFFFFFFFFFFFFFFFFFFFFFFFFFFFFFFFFFFFFFFFFFFFFFFFFFF",
     "FFFFFFFFFFFFFFFFFFFFFFFFFFFFFFFFFFFFFFFFFFFFFFFFFFFFFFFFFFFFFFFF",
     "C5CD49443FFEB12D6A7C72B7665CA1E341D68A6E6FC54FCF77B567A3CE15BE9EC76E27121E648C44"},
    {"480CCBF99C4329C34D9921AA84510F72E06AB7FA45797BF00BEF0EC8C4B09764",
     "4897FF955C2A4DD7F361B24F8EB8EC697E14857AF4D610688320B88F1693EDFA",
     "D6B16138084A1CEE6B32305ED440C052D0C9222587BCAA25B9ADE063A74711DB78790E4B44A79353"},
    {"A04F0BFD94A7955186DBA380D6A84B2D084B387437F859B2FD010C1D53AF6E17",
     "47431387476DBBEEBDBF5516C5A49187D8D39B0998F0F104D693008B68BAF549",
     "38C9B0545D3243AB47D5FC27AA6FF533D92D529E85A7BFF09FE3D42726AD6B6C6B1CF90A1F10671E"},
};

/* None of RFC_WRAPPED's bytes is UNTOUCHED. */
static void check_wrapped_size(void)
{
    int size = 0;
    memset(desk, UNTOUCHED, ROOM);
    lay_digits(desk + OPENER_AT, RFC_KEK);
    lay_digits(desk + BYTES_AT + 8, RFC_KEY);
    wrap(desk + OPENER_AT, desk + BYTES_AT);
    for (int i = 0; i < ROOM - BYTES_AT; i++)
        size = desk[BYTES_AT + i] == UNTOUCHED ? size : i + 1;
    CHECK(size == TUFFALEEN_WRAPPED_BYTES, "a wrapped key has %d bytes, and is written as %d", TUFFALEEN_WRAPPED_BYTES,
          size);
}

/* A key, behind whatever stands before it, becomes the wrapped one; and that becomes the key, behind A6s. */
static void check_wrapping(const uint8_t opener[32], const uint8_t open[40], const uint8_t wrapped[40], int which)
{
    uint8_t before[40];
    memcpy(before, open, 40);
    for (int first = 0; first < 256; first++) {
        memset(before, first, 8);
        lay_desk(opener, before, wrapped);
        wrap(desk + OPENER_AT, desk + BYTES_AT);
        CHECK(desk_as_awaited(), "key %d is wrapped to other bytes", which);
    }
    lay_desk(opener, wrapped, open);
    uint16_t answer = unwrap(desk + OPENER_AT, desk + BYTES_AT);
    CHECK(answer == TUFFALEEN_DONE && desk_as_awaited(), "wrapped key %d is opened to other bytes: %04X", which,
          answer);
}

/* One bit of the key-encryption key or of the wrapped key is another. */
static void check_spoilt(const uint8_t opener[32], const uint8_t wrapped[40], int which)
{
    static const uint8_t zeros[40];
    uint8_t both[32 + 40];
    memcpy(both, opener, 32);
    memcpy(both + 32, wrapped, 40);
    for (int bit = 0; bit < 8 * (32 + 40); bit++) {
        both[bit / 8] ^= 1 << bit % 8;
        lay_desk(both, both + 32, zeros);
        uint16_t answer = unwrap(desk + OPENER_AT, desk + BYTES_AT);
        CHECK(answer == TUFFALEEN_INTEGRITY_FAILED, "wrapped key %d, bit %d changed: %04X", which, bit, answer);
        CHECK(answer == 0x0710 && desk_as_awaited(), "wrapped key %d, bit %d changed: bytes are left", which, bit);
        both[bit / 8] ^= 1 << bit % 8;
    }
}

static void check_wrappings(void)
{
    for (size_t i = 0; i < sizeof wrappings / sizeof *wrappings; i++) {
        uint8_t opener[32], open[40], wrapped[40];
        memset(open, 0xA6, 8);
        lay_digits(opener, wrappings[i].opener);
        lay_digits(open + 8, wrappings[i].key);
        lay_digits(wrapped, wrappings[i].wrapped);
        check_wrapping(opener, open, wrapped, i);
        check_spoilt(opener, wrapped, i);
    }
}

/* Keys and key-encryption keys of all kinds of bytes: wrapped and opened, a key is what it was. Each is made of the one
 * before. */
static void check_wrapped_and_opened(void)
{
    uint8_t opener[32] = {0}, open[40], wrapped[40] = {0};
    for (int turn = 0; turn < 1000; turn++) {
        memcpy(opener, wrapped + turn % 9, 32);
        memset(open, 0xA6, 8);
        memcpy(open + 8, wrapped, 32);
        memcpy(wrapped, open, 40);
        wrap(opener, wrapped);
        lay_desk(opener, wrapped, open);
        uint16_t answer = unwrap(desk + OPENER_AT, desk + BYTES_AT);
        CHECK(answer == TUFFALEEN_DONE && desk_as_awaited(), "turn %d, wrapped and opened: %04X", turn, answer);
    }
}

/* What versions 2 and 3 stored, by their own numbers: the most tag counts, and AA as the KeyUID of namespace 4, block
 * 255. Made anew from that after a loss of power, the drive is sound and tells the block as written under AA. */
static void check_stored_before(const uint8_t counts[4])
{
    static const uint8_t mark[17] = {1, 0xAA};
    static const struct { const char *load; uint16_t answer; } keys[] = {
        {"0304000001BB" KEY_2, TUFFALEEN_WRONG_KEY},
        {"0304000001AA" KEY_1, TUFFALEEN_DONE},
    };
    for (size_t i = 0; i < sizeof keys / sizeof *keys; i++) {
        uint8_t frame[65] = {0x07, 0x02};
        frame[5] = 4;
        frame[41] = 255;
        frame[51] = 1;
        start();
        lay(image, TUFFALEEN_COUNTS_AT, counts, 4);
        lay(marks, ((4 - 1) * 256 + 255) * 17, mark, sizeof mark);
        uint16_t loaded = ask(keys[i].load), answer = ask_frame(frame, sizeof frame);
        CHECK(loaded == TUFFALEEN_DONE && answer == keys[i].answer, "stored before, %d tags: %04X, %04X", counts[0],
              loaded, answer);
    }
}

/* Whoever changes the layout comes by here, and counts the version up. */
static void check_version(void)
{
    int stored_as_in_2 = TUFFALEEN_COUNTS_AT == 0 && TUFFALEEN_MARKS_BYTES == 17408 && TUFFALEEN_MARK_BYTES == 17;
    int as_in_3 = stored_as_in_2 && TUFFALEEN_LOCKS_AT == 4 && TUFFALEEN_SLOTS_AT == 6 && TUFFALEEN_SLOT_BYTES == 49 &&
                  TUFFALEEN_SLOT_AT(2, 0) == 6 + 128 * 49;
    int as_in_4 = as_in_3 && TUFFALEEN_IMAGE_BYTES == 25126 && TUFFALEEN_KEK_AT == 25094 && TUFFALEEN_KEK_BYTES == 32;
    CHECK(as_in_4 == (TUFFALEEN_LAYOUT_VERSION == 4), "layout version %d", TUFFALEEN_LAYOUT_VERSION);
}

/* With a wrong one of these the others would fail too. */
static void check_sizes(void)
{
    check_fresh();
    check_buffer(0, 0, TUFFALEEN_DONE);
    for (int off = -1; off <= 1; off += 2) {
        check_buffer(off, 0, TUFFALEEN_UNSOUND_STATE);
        check_buffer(0, off, TUFFALEEN_STORE_LENGTH);
    }
    check_output();
    check_discovery_output();
    check_line_length();
    check_discovery_room();
    check_message_room();
    check_wrapped_size();
}

static void check_all_features(void)
{
    for (int off = -1; off <= 1; off++) {
        check_features(-1, 0x2C + off);
        check_features(0x0C + off, -1);
        check_features(0x0C + off, 0x2C - off);
    }
    check_features(-1, -1);
    check_features(0, 0);
}

int main(void)
{
    int slots = 0, written_marks = 0, numbers = 0, names = 0, reasons = 0;
    check_sizes();
    if (failures == 0) {
        check_other_keks();
        check_line_without_message();
        check_wrapped_line();
        check_longest_message();
        check_no_messages();
        check_counts();
        check_locks();
        slots = check_slots(load);
        CHECK(check_slots(load_by_message) == slots, "the slots that messages bring");
        CHECK(check_slots(load_wrapped) == slots, "the slots that wrapped loads bring");
        check_cleared_slots();
        written_marks = check_marks();
        check_soundness();
        check_stored_before((uint8_t[]){32, 31, 0, 1});
        check_stored_before((uint8_t[]){128, 127, 0, 1});
        check_kek_kept();
        check_kek_lent();
        check_wrappings();
        check_wrapped_and_opened();
        check_own_response();
        names = check_fields();
        check_all_features();
        reasons = check_faults();
        check_places();
        numbers = check_line_answers() + check_call_answers() + check_no_responses();
    }
    check_version();
    if (failures == 0)
        printf("layout: %d answers, %d faults, %d fields, %d slots, %d marks as the header says\n", numbers, reasons,
               names, slots, written_marks);
    return failures != 0;
}
