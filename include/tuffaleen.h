/*
 * Tuffaleen: the drive's key cache, its key check and its boot partition locks, for firmware in C or C++.
 *
 * The functions are proved to answer as docs/RULES.md says, for every image, store, line and output
 * that fits the rules under "What the caller promises". Make the library and link it, on x86-64:
 *
 *     tests/native-library
 *     gcc -Iinclude firmware.c target/staticlib/libtuffaleen_c.a
 *
 * It needs memcpy and memset and nothing else of a C library: no heap, no input or output, no threads. A call takes
 * at most 3,600 bytes of stack (the frames in the x86-64 code that rt makes), and what memcpy and memset take.
 *
 * Keys are worked on where they lie, in the image, and are not copied. A line that brings a key is decoded into 512
 * bytes on the stack, and what a message brings goes through 48 more; to open a wrapped key, round keys are made of the
 * key-encryption key, 240 bytes on the stack. All of these are zeroed before the call returns. A compiler may drop such
 * stores; in the object code that rt makes (its clang 22, -O3, x86-64) they are there, at the end of drive::act::on_line
 * and, for the round keys, of wrap::unwrap. tuffaleen_wrap and tuffaleen_unwrap have their round keys in memory of
 * yours and zero it, which no compiler can drop. What processor registers and the text that you handed over still hold,
 * the library does not wipe.
 *
 * Keys are wrapped and opened by look-ups in tables of 1 KB and of 256 bytes. The time of a look-up depends on the data:
 * who can measure the time of a call exactly, or shares the cache, may learn of the key-encryption key
 * (docs/KEYWRAP.md).
 *
 * The library keeps nothing between calls. All it knows lies in two buffers of yours:
 *
 *   image   the drive's state: tag counts, boot locks, keys, and the key-encryption key that opens wrapped keys.
 *   marks   the mark store: under which KeyUID each block was last written.
 *
 * tuffaleen_start makes both those of a fresh drive. Each later call reads them and changes them in place. No line
 * changes the key-encryption key, and no answer has anything of it.
 *
 * What must outlast the power is the marks, the four tag counts and the key-encryption key, and nothing else of the
 * image, which has the keys. The key-encryption key is not in the marks: take it from where tuffaleen_start had it
 * from. After a loss of power make the image anew: the tag counts kept, both locks Write Locked, the key-encryption key
 * as at the start, every other byte zero. That is what the line 0B01 (power cycle) makes of any sound image, and
 * examples/power-loss.c shows it. Do not call tuffaleen_start: it zeroes the marks.
 *
 * What the caller promises, since no function can check it:
 *
 *   - Every pointer may be read, and if it is not to const also written, for all of its length. `kek` points to 32
 *     bytes, `bytes` to 40 and `words` to 60 uint32_t; `lines` and `written` point to a size_t each, and `fields` and
 *     `words` are aligned as C aligns a uint32_t.
 *   - No buffer overlaps another, nor `lines` or `written`. So the `kek` of tuffaleen_start does not lie in the image:
 *     to start anew with the same, copy it first.
 *   - No pointer is null. Where a length is 0 nothing is read or written there; still pass some address.
 *   - Nothing else touches the buffers during a call. Calls on different buffers may run at the same time.
 *
 * What the caller gets:
 *
 *   - A refusal changes neither image nor marks (one exception: tuffaleen_start with a wrong store).
 *   - Beyond the bytes written, an output keeps what it held. Nothing outside the given lengths is touched.
 *   - Every call ends, and needs no alignment of any buffer of bytes.
 */
#ifndef TUFFALEEN_H
#define TUFFALEEN_H

#include <stddef.h>
#include <stdint.h>

#ifdef __cplusplus
extern "C" {
#endif

/*
 * Counts up whenever a size, an offset or the meaning of a byte of image or mark store changes:
 *
 *   2   a mark holds the whole KeyUID, 17 bytes; 1 held 9, and its marks cannot be made into these.
 *   3   an image has 128 slots for each namespace; 2 had 32. Marks and tag counts are as in 2.
 *   4   an image ends with the key-encryption key, 32 bytes; 3 had none. All before it, and the marks, are as in 3.
 *
 * Store it beside the marks and tag counts, and hand these to no library of another version. Two exceptions: marks and
 * tag counts are the same in 3 and 4, so that either takes the other's; and both take those that were stored under 2,
 * for they allow every tag count and every sum that 2 allowed. The way back to 2 is closed: it refuses a tag count
 * above 32 or a sum above 64 as unsound. The library cannot check the version: no byte of the image or of the store
 * holds it.
 */
#define TUFFALEEN_LAYOUT_VERSION 4

/* Sizes in bytes. */
#define TUFFALEEN_IMAGE_BYTES 25126  /* an image, exactly */
#define TUFFALEEN_MARKS_BYTES 17408  /* a mark store, exactly */
#define TUFFALEEN_ANSWER_BYTES 13    /* the output that a call must have room for, for each line but the line 0C */
#define TUFFALEEN_DISCOVERY_BYTES 229 /* the same for the line 0C, which asks for discovery */
#define TUFFALEEN_LINE_BYTES 1024    /* the longest frame line, without its line feed */
#define TUFFALEEN_MESSAGE_BYTES 408  /* the output that tuffaleen_message must have room for */
#define TUFFALEEN_KEK_BYTES 32       /* a key-encryption key, exactly */
#define TUFFALEEN_WRAPPED_BYTES 40   /* a wrapped key, exactly: a key of 32 and an integrity value of 8 */
#define TUFFALEEN_ROUND_KEY_WORDS 60 /* words of 32 bits that tuffaleen_wrap and tuffaleen_unwrap are lent */

/*
 * Where things lie in an image. Whoever only calls the functions below does not need these; they serve whoever
 * shows a state, or stores one. All bytes are as the paper has them: an emptied slot is all zero bytes, and a
 * KeyUID is padded with zeros.
 */
#define TUFFALEEN_COUNTS_AT 0        /* 4 bytes: tag counts of namespaces 1 to 4, 0 if not managed */
#define TUFFALEEN_LOCKS_AT 4         /* 2 bytes: the states of boot partitions 0 and 1, as below */
#define TUFFALEEN_SLOTS_AT 6         /* 512 slots, 128 for each namespace, managed or not */
#define TUFFALEEN_SLOT_BYTES 49      /* KeyUID length 1 (0 if empty), KeyUID 16, key 32 */
#define TUFFALEEN_SLOT_AT(ns, tag) (TUFFALEEN_SLOTS_AT + (((ns) - 1) * 128 + (tag)) * TUFFALEEN_SLOT_BYTES)
#define TUFFALEEN_KEK_AT 25094       /* 32 bytes: the key-encryption key, behind the last slot */

#define TUFFALEEN_WRITE_UNLOCKED 1
#define TUFFALEEN_WRITE_LOCKED 2
#define TUFFALEEN_WRITE_LOCKED_UNTIL_POWER_CYCLE 3

/*
 * Where things lie in a mark store: namespace order, then block order; the KeyUID's length (0: never written),
 * then the KeyUID, padded with zeros to 16.
 */
#define TUFFALEEN_MARK_BYTES 17
#define TUFFALEEN_MARK_AT(ns, block) ((((ns) - 1) * 256 + (block)) * TUFFALEEN_MARK_BYTES)

/* Every answer's number: status type in the high byte, status code in the low one. */
enum tuffaleen_answer {
    TUFFALEEN_DONE = 0x0000,
    TUFFALEEN_INVALID_OPCODE = 0x0001,      /* I/O opcode other than write, read, compare, verify */
    TUFFALEEN_INVALID_FIELD = 0x0002,       /* CETYPE, Dword 11, boot partition or reset byte */
    TUFFALEEN_INVALID_NAMESPACE = 0x000B,   /* namespace not 1 to 4 */
    TUFFALEEN_INVALID_KEY_TAG = 0x0025,     /* tag above Maximum Key Tag; or I/O to an empty slot */
    TUFFALEEN_WRONG_KEY = 0x0028,           /* a covered block was written under another KeyUID */
    TUFFALEEN_BLOCK_RANGE = 0x0080,         /* blocks reach past 256 */
    TUFFALEEN_LOCK_NOT_CHANGEABLE = 0x010E, /* a boot lock is not changeable now */
    TUFFALEEN_BOOT_WRITE_LOCKED = 0x011E,   /* boot partition not Write Unlocked */
    TUFFALEEN_NOT_A_FRAME_LINE = 0x0701,    /* the answer at `out` says why: tuffaleen_line_fault */
    TUFFALEEN_UNKNOWN_KIND = 0x0702,
    TUFFALEEN_WRONG_FRAME_LENGTH = 0x0703,
    TUFFALEEN_KEY_UID_LENGTH = 0x0704,      /* KeyUID length 0 or above 16 */
    TUFFALEEN_ALREADY_MANAGED = 0x0705,
    TUFFALEEN_NOT_MANAGED = 0x0706,
    TUFFALEEN_TAG_COUNT = 0x0707,           /* tag count 0 or above 128 */
    TUFFALEEN_POOL_TOO_SMALL = 0x0708,
    TUFFALEEN_SLOT_OCCUPIED = 0x0709,
    TUFFALEEN_SLOT_EMPTY = 0x070A,
    TUFFALEEN_OLD_KEY_UID = 0x070B,         /* old KeyUID is not the slot's */
    TUFFALEEN_OTHER_KEY = 0x070C,           /* a loaded slot has this KeyUID and another key */
    TUFFALEEN_STORE_LENGTH = 0x070D,        /* store not of TUFFALEEN_MARKS_BYTES */
    TUFFALEEN_UNSOUND_STATE = 0x070E,       /* image of another length, or not sound */
    TUFFALEEN_OUTPUT_TOO_SHORT = 0x070F,    /* less than the lines, the fields or a message may need */
    TUFFALEEN_INTEGRITY_FAILED = 0x0710,    /* a wrapped key whose integrity value does not come out */
    TUFFALEEN_NOT_A_RESPONSE = 0x0716,      /* tuffaleen_discovery alone: data that is no discovery response */
    TUFFALEEN_NOT_A_MESSAGE = 0x0717,       /* no message of a load to this namespace and tag */
    TUFFALEEN_MESSAGE_KEY_UID = 0x0718      /* a message whose KeyUID has 0 bytes or more than 16 */
};

/*
 * Why a line is no frame line; of several reasons that hold, the first of these is told. The number is
 * TUFFALEEN_NOT_A_FRAME_LINE for each of them. Reason and place stand in the answer line at `out` alone, behind its
 * first four digits: two digits of reason, then four of the place, its low byte first.
 *
 *   0701030000   a bad digit, the line's first character
 *   0701030401   a bad digit at place 0x0104, that is line[260]
 *   0701040000   an odd number of digits
 *
 * The place is an index into the line as it was handed over, so that a blank or a carriage return counts as any other
 * character; it is that of the first bad digit, and 0 where the reason is another. To read them, with hex(at) for the
 * byte whose high digit stands `at` characters behind the answer's start, and its low digit next to that: the reason
 * is hex(4), the place hex(6) + 256 * hex(8). examples/bad-line.c does it so.
 */
enum tuffaleen_line_fault {
    TUFFALEEN_LINE_EMPTY = 1,
    TUFFALEEN_LINE_TOO_LONG = 2,  /* more than TUFFALEEN_LINE_BYTES characters, whatever they are */
    TUFFALEEN_LINE_BAD_DIGIT = 3, /* a character other than 0-9 and A-F; small letters are such */
    TUFFALEEN_LINE_ODD = 4        /* nothing but digits, and an odd number of them */
};

/*
 * The places of what tuffaleen_discovery finds, one number for each field of a discovery response, in the order of 001,
 * section 3.1.1 (docs/DISCOVERY.md has each field's bytes and bits). A feature that was found has 1 at its place
 * _FOUND and its fields behind it; one that is absent has 0 at all of them.
 */
enum tuffaleen_discovery_field {
    TUFFALEEN_DATA_STRUCTURE_REVISION = 0,
    TUFFALEEN_VENDOR_SPECIFIC = 1,                 /* 32 places, a byte each */

    TUFFALEEN_TPER_FOUND = 33,
    TUFFALEEN_TPER_VERSION = 34,
    TUFFALEEN_COM_ID_MGMT_SUPPORTED = 35,
    TUFFALEEN_STREAMING_SUPPORTED = 36,
    TUFFALEEN_BUFFER_MGMT_SUPPORTED = 37,
    TUFFALEEN_ACK_NACK_SUPPORTED = 38,
    TUFFALEEN_ASYNC_SUPPORTED = 39,
    TUFFALEEN_SYNC_SUPPORTED = 40,

    TUFFALEEN_KEY_PER_IO_FOUND = 41,
    TUFFALEEN_FEATURE_DESCRIPTOR_VERSION = 42,
    TUFFALEEN_SSC_MINOR_VERSION = 43,
    TUFFALEEN_PROTOCOL_01_BASE_COM_ID = 44,
    TUFFALEEN_PROTOCOL_01_NUMBER_OF_COM_IDS = 45,
    TUFFALEEN_PROTOCOL_03_BASE_COM_ID = 46,
    TUFFALEEN_PROTOCOL_03_NUMBER_OF_COM_IDS = 47,
    TUFFALEEN_INITIAL_PIN_INDICATOR = 48,
    TUFFALEEN_BEHAVIOR_OF_PIN_UPON_REVERT = 49,
    TUFFALEEN_NUMBER_OF_ADMIN_AUTHORITIES = 50,
    TUFFALEEN_REPLAY_PROTECTION_ENABLED = 51,
    TUFFALEEN_REPLAY_PROTECTION_SUPPORTED = 52,
    TUFFALEEN_INCORRECT_KEY_DETECTION_SUPPORTED = 53,
    TUFFALEEN_SHARED_TWEAK_KEY_REQUIRED = 54,
    TUFFALEEN_SCOPE = 55,
    TUFFALEEN_ENABLED = 56,
    TUFFALEEN_MAXIMUM_KEY_UID_LENGTH = 57,
    TUFFALEEN_KMIP_KEY_INJECTION_SUPPORTED = 58,
    TUFFALEEN_RSA_OAEP_SUPPORTED = 59,
    TUFFALEEN_AES_GCM_SUPPORTED = 60,
    TUFFALEEN_AES_KW_SUPPORTED = 61,
    TUFFALEEN_AES_256_WRAPPING_KEY_SUPPORTED = 62,
    TUFFALEEN_RSA4K_WRAPPING_KEY_SUPPORTED = 63,
    TUFFALEEN_RSA3K_WRAPPING_KEY_SUPPORTED = 64,
    TUFFALEEN_RSA2K_WRAPPING_KEY_SUPPORTED = 65,
    TUFFALEEN_PKI_KEK_TRANSPORT_SUPPORTED = 66,
    TUFFALEEN_PLAINTEXT_KEK_PROVISIONING_SUPPORTED = 67,
    TUFFALEEN_NUMBER_OF_KEY_ENCRYPTION_KEYS = 68,
    TUFFALEEN_TOTAL_NUMBER_OF_KEY_TAGS = 69,
    TUFFALEEN_MAXIMUM_KEY_TAGS_PER_NAMESPACE = 70,
    TUFFALEEN_NONCE_LENGTH = 71,

    TUFFALEEN_DISCOVERY_FIELDS = 72                /* how many places there are */
};

/*
 * Starts a fresh drive: nothing managed, no keys, both boot partitions Write Locked, no block written. The 32 bytes at
 * `kek` become its key-encryption key, for good. Any will do; whoever wraps keys for the drive has to have the same.
 * The image has a copy of them, so that yours is not needed again until the power goes.
 *
 *   TUFFALEEN_DONE            the image is the fresh drive's, with this key-encryption key, and the marks are zero,
 *                             whatever they held.
 *   TUFFALEEN_STORE_LENGTH    the marks have another length and stay. The image is the fresh drive's still, with this
 *                             key-encryption key, unless its length is wrong too: then it stays as well.
 *   TUFFALEEN_UNSOUND_STATE   the image alone has another length. Both stay.
 */
uint16_t tuffaleen_start(uint8_t *image, size_t image_len, uint8_t *marks, size_t marks_len, const uint8_t *kek);

/*
 * Answers one frame line, given without its line feed. Returns the answer's number; at `out` the same number stands
 * as four uppercase digits, for Get Features followed by the eight of its data, for discovery (the line 0C) by the 224
 * of its response, for TUFFALEEN_NOT_A_FRAME_LINE by six that tell where the line is bad (tuffaleen_line_fault), and a
 * line feed. `*written` is how many bytes that is: 5, 11, 13 or 229. The room asked is 13 or 229 all the same.
 *
 * Three answers refuse the call, not the line, and are looked for first and in this order. With these nothing is
 * written at `out`, and `*written` is 0:
 *
 *   TUFFALEEN_OUTPUT_TOO_SHORT   out_len below 229 for the line 0C, below 13 for any other
 *   TUFFALEEN_STORE_LENGTH       marks_len other than 17408
 *   TUFFALEEN_UNSOUND_STATE      image_len other than 25126; a lock byte outside 1 to 3; a tag count above 128, a sum
 *                                of them above 256; a slot that is loaded at an unallocated tag, has a KeyUID length
 *                                above 16, or has a byte other than zero after its KeyUID or, if empty, anywhere. A
 *                                key-encryption key may have any bytes
 */
uint16_t tuffaleen_line(uint8_t *image, size_t image_len, uint8_t *marks, size_t marks_len,
                        const uint8_t *line, size_t line_len,
                        uint8_t *out, size_t out_len, size_t *written);

/*
 * Answers every line of a text, as tuffaleen_line would one after the other; the state is looked through once and
 * not for each line. Lines end with a line feed; a last line without one counts, an empty line is answered
 * 0701010000, and an empty text has no lines. The answers stand at `out` one after the other.
 *
 * Returns TUFFALEEN_DONE, whatever the single answers are, with `*lines` the lines answered and `*written` the bytes
 * written; or one of the three refusals of tuffaleen_line, with both 0. The output needs 229 bytes for each line that
 * is just 0C and 13 for each other.
 */
uint16_t tuffaleen_session(uint8_t *image, size_t image_len, uint8_t *marks, size_t marks_len,
                           const uint8_t *text, size_t text_len,
                           uint8_t *out, size_t out_len, size_t *lines, size_t *written);

/*
 * For a host: what stands in a drive's discovery response (112 bytes from ours; any bytes may be given). It needs
 * neither image nor marks. Features of other codes, higher versions and bytes behind the response are passed over; of
 * two features of one code the first counts, and one that is too short is absent. fields_len counts numbers.
 *
 * The two refusals are looked for in this order, and with them nothing is written:
 *
 *   TUFFALEEN_OUTPUT_TOO_SHORT   fields_len below TUFFALEEN_DISCOVERY_FIELDS
 *   TUFFALEEN_NOT_A_RESPONSE     the data is shorter than the header, its length ends inside the header or past the
 *                                data, or a feature's head or length runs past that
 *
 * Else TUFFALEEN_DONE: the numbers stand at the first TUFFALEEN_DISCOVERY_FIELDS places, and what is behind stays.
 */
uint16_t tuffaleen_discovery(const uint8_t *data, size_t data_len, uint32_t *fields, size_t fields_len);

/*
 * For an office that sends keys: the KMIP message that brings a KeyUID and a key to a slot (docs/KMIP.md has it item by
 * item). It needs neither image nor marks. In a frame line the message stands as digits behind 0D, the namespace and
 * the tag, and the drive takes it for this namespace and this tag only; whether there are such, the drive says.
 *
 * The refusals are looked for in this order, and with them nothing is written at `out`, and `*written` is 0:
 *
 *   TUFFALEEN_OUTPUT_TOO_SHORT   out_len below TUFFALEEN_MESSAGE_BYTES, however short the KeyUID is
 *   TUFFALEEN_NOT_A_MESSAGE      key_len other than 32
 *   TUFFALEEN_MESSAGE_KEY_UID    key_uid_len 0 or above 16
 *
 * Else TUFFALEEN_DONE: the message stands at `out`, `*written` is its size, 400 for a KeyUID of up to 8 bytes and 408
 * for a longer one. The message has the key in the clear: wipe it when it has been sent.
 */
uint16_t tuffaleen_message(uint8_t ns, uint16_t tag, const uint8_t *key_uid, size_t key_uid_len,
                           const uint8_t *key, size_t key_len,
                           uint8_t *out, size_t out_len, size_t *written);

/*
 * For an office that sends keys by a courier, who must not know them: wraps a key with the drive's key-encryption key,
 * by the AES key wrap of RFC 3394 (KW of NIST SP 800-38F) with AES-256. It needs neither image nor marks. The 40 bytes
 * are worked on in place: before, the key stands in bytes 8 to 39, and what the first 8 hold does not matter;
 * afterwards all 40 are the wrapped key. The round keys of the key-encryption key go through the 60 words, which may
 * hold anything before and are all zero afterwards.
 *
 * The courier carries these, and never the key-encryption key. A frame line of kind 0E brings them, which is a load of
 * kind 03 with the 40 bytes in the key's place: 0E, namespace, tag, the KeyUID's length, the KeyUID, the wrapped key.
 * For bytes that its key-encryption key does not open the drive answers TUFFALEEN_INTEGRITY_FAILED, and loads nothing.
 * The wrapping guards the key alone: namespace, tag and KeyUID of the line are not in it, and the same key always
 * becomes the same 40 bytes.
 */
void tuffaleen_wrap(const uint8_t *kek, uint8_t *bytes, uint32_t *words);

/*
 * Opens a wrapped key of 40 bytes in place, as the drive does, with 60 words as above. It needs neither image nor marks.
 *
 *   TUFFALEEN_DONE               the key stands in bytes 8 to 39, in the clear, and the first 8 are A6 each. Wrapped
 *                                again, they are the same 40 bytes as before.
 *   TUFFALEEN_INTEGRITY_FAILED   the bytes are no key that was wrapped with this key-encryption key: they were changed
 *                                on the way, or wrapped with another. All 40 are zero.
 */
uint16_t tuffaleen_unwrap(const uint8_t *kek, uint8_t *bytes, uint32_t *words);

#ifdef __cplusplus
}
#endif

#endif
