/* A key goes from a key office to a drive as a KMIP message, and to one place of it only. Build it with
 * gcc -Iinclude examples/message.c target/staticlib/libtuffaleen_c.a */
#include <stdio.h>
#include <string.h>
#include <tuffaleen.h>

#define KEY_BYTES 32
#define HEAD_BYTES 4 /* of a frame before its message: the kind 0D, the namespace, the tag */

static uint8_t image[TUFFALEEN_IMAGE_BYTES], marks[TUFFALEEN_MARKS_BYTES];

/* Opens wrapped keys. None comes here, so any will do. */
static const uint8_t kek[TUFFALEEN_KEK_BYTES];

/* What has the key in it, beside the image of a drive that has taken it. None of it is printed; all three are wiped. */
static uint8_t key[KEY_BYTES], message[TUFFALEEN_MESSAGE_BYTES], line[2 * (HEAD_BYTES + TUFFALEEN_MESSAGE_BYTES)];

/* A compiler may leave out a memset of what is not read any more, but not this. */
static void wipe(volatile uint8_t *bytes, size_t len)
{
    while (len > 0)
        bytes[--len] = 0;
}

static int differs(const char *what, uint16_t answer, uint16_t awaited)
{
    printf("%-42s %04X\n", what, (unsigned)answer);
    return answer != awaited;
}

static void put_digits(size_t at, const uint8_t *bytes, size_t len)
{
    static const char digits[] = "0123456789ABCDEF";
    for (size_t i = 0; i < len; i++) {
        line[2 * (at + i)] = digits[bytes[i] >> 4];
        line[2 * (at + i) + 1] = digits[bytes[i] & 15];
    }
}

/* The frame line that brings the message to a namespace and a tag, whose lower byte comes first. Tells its length. */
static size_t write_line(uint8_t ns, uint16_t tag, size_t message_len)
{
    const uint8_t head[HEAD_BYTES] = {0x0D, ns, tag & 0xFF, tag >> 8};
    put_digits(0, head, sizeof head);
    put_digits(sizeof head, message, message_len);
    return 2 * (sizeof head + message_len);
}

static uint16_t ask(const uint8_t *text, size_t len)
{
    uint8_t out[TUFFALEEN_ANSWER_BYTES];
    size_t written;
    return tuffaleen_line(image, sizeof image, marks, sizeof marks, text, len, out, sizeof out, &written);
}

/* In the office: a refusal writes nothing, and once there is a message the key is not needed any more. */
static int office(size_t *message_len)
{
    const uint8_t *heron = (const uint8_t *)"HERON";
    memset(key, 0x11, sizeof key);
    uint16_t answer = tuffaleen_message(1, 0, heron, 5, key, sizeof key - 1, message, sizeof message, message_len);
    int different = differs("a message for HERON, a key byte lost", answer, TUFFALEEN_NOT_A_MESSAGE);
    answer = tuffaleen_message(1, 0, heron, 5, key, sizeof key, message, sizeof message, message_len);
    different |= differs("a message for HERON, namespace 1, tag 0", answer, TUFFALEEN_DONE);
    wipe(key, sizeof key);
    printf("  it has %d bytes\n", (int)*message_len);
    return different || *message_len != 400;
}

/* In the drive: the message says itself which slot it is for, and is taken for no other. */
static int drive(size_t message_len)
{
    int different = tuffaleen_start(image, sizeof image, marks, sizeof marks, kek) != TUFFALEEN_DONE;
    different |= differs("two tags for namespace 1", ask((const uint8_t *)"010102", 6), TUFFALEEN_DONE);
    different |= differs("the message to tag 0", ask(line, write_line(1, 0, message_len)), TUFFALEEN_DONE);
    different |= differs("the same message to tag 1", ask(line, write_line(1, 1, message_len)), TUFFALEEN_NOT_A_MESSAGE);

    const uint8_t *slot = image + TUFFALEEN_SLOT_AT(1, 0);
    int loaded = slot[0] == 5 && memcmp(slot + 1, "HERON", 5) == 0 && image[TUFFALEEN_SLOT_AT(1, 1)] == 0;
    puts(loaded ? "  HERON is loaded under tag 0, nothing under tag 1" : "  other slots are loaded");
    return different || !loaded;
}

int main(void)
{
    size_t message_len;
    int different = office(&message_len);
    different |= drive(message_len);
    wipe(message, sizeof message);
    wipe(line, sizeof line);
    if (different)
        puts("different: these are not the answers awaited");
    return different;
}
