/* A key goes from a key office to a drive by a courier, who must not know it: it is wrapped. Build it with
 * gcc -Iinclude examples/wrapped.c target/staticlib/libtuffaleen_c.a */
#include <stdio.h>
#include <string.h>
#include <tuffaleen.h>

#define KEY_BYTES 32
#define VALUE_BYTES 8 /* of a wrapped key before the key: its integrity value */
#define HEAD_BYTES 10 /* of a frame before the wrapped key: the kind 0E, namespace, tag, the KeyUID's length, HERON */

static uint8_t image[TUFFALEEN_IMAGE_BYTES], marks[TUFFALEEN_MARKS_BYTES];

/* What office and drive have, and no courier: the key-encryption key. Here it is the program's, bytes 00 to 1F. */
static uint8_t kek[TUFFALEEN_KEK_BYTES];

/* What the round keys go through; the library zeroes it. */
static uint32_t words[TUFFALEEN_ROUND_KEY_WORDS];

/* What the courier has: a frame line. Nothing in it has to be hidden. */
static char paper[2 * (HEAD_BYTES + TUFFALEEN_WRAPPED_BYTES) + 1];

/* A compiler may leave out a memset of what is not read any more, but not this. */
static void wipe(volatile uint8_t *bytes, size_t len)
{
    while (len > 0)
        bytes[--len] = 0;
}

static int differs(const char *what, uint16_t answer, uint16_t awaited)
{
    printf("%-42s %04X\n", what, (unsigned)answer);
    return answer != awaited;
}

static void write_paper(const uint8_t *frame)
{
    static const char digits[] = "0123456789ABCDEF";
    for (size_t i = 0; i < sizeof paper / 2; i++) {
        paper[2 * i] = digits[frame[i] >> 4];
        paper[2 * i + 1] = digits[frame[i] & 15];
    }
    printf("  %s\n", paper);
}

static uint16_t ask(const char *line)
{
    uint8_t out[TUFFALEEN_ANSWER_BYTES];
    size_t written;
    return tuffaleen_line(image, sizeof image, marks, sizeof marks, (const uint8_t *)line, strlen(line),
                          out, sizeof out, &written);
}

static int is_key(const uint8_t *bytes)
{
    int same = 1;
    for (size_t i = 0; i < KEY_BYTES; i++)
        same &= bytes[i] == 0x11;
    return same;
}

/* In the office: the key is wrapped where it stands in the frame, and nothing is left of it there. Who wants to be sure
 * opens a copy, and wipes that. */
static int office(void)
{
    uint8_t frame[HEAD_BYTES + TUFFALEEN_WRAPPED_BYTES] = {0x0E, 1, 0, 0, 5, 'H', 'E', 'R', 'O', 'N'};
    uint8_t copy[TUFFALEEN_WRAPPED_BYTES];
    memset(frame + HEAD_BYTES + VALUE_BYTES, 0x11, KEY_BYTES);
    tuffaleen_wrap(kek, frame + HEAD_BYTES, words);

    memcpy(copy, frame + HEAD_BYTES, sizeof copy);
    int different = differs("HERON's key is wrapped; opened again", tuffaleen_unwrap(kek, copy, words), TUFFALEEN_DONE);
    different |= !is_key(copy + VALUE_BYTES);
    wipe(copy, sizeof copy);
    puts("the courier's paper, for namespace 1, tag 0:");
    write_paper(frame);
    return different;
}

/* In the drive: a wrong digit is noticed before anything is loaded. */
static int drive(void)
{
    int different = tuffaleen_start(image, sizeof image, marks, sizeof marks, kek) != TUFFALEEN_DONE;
    different |= differs("two tags for namespace 1", ask("010102"), TUFFALEEN_DONE);
    char *last = paper + strlen(paper) - 1, right = *last;
    *last = right == '0' ? '1' : '0';
    different |= differs("the paper, its last digit mistyped", ask(paper), TUFFALEEN_INTEGRITY_FAILED);
    *last = right;
    different |= differs("the paper as it is", ask(paper), TUFFALEEN_DONE);

    const uint8_t *slot = image + TUFFALEEN_SLOT_AT(1, 0);
    int loaded = slot[0] == 5 && memcmp(slot + 1, "HERON", 5) == 0 && is_key(slot + 17);
    puts(loaded ? "  HERON's key is loaded under tag 0" : "  something else is loaded");
    return different || !loaded;
}

/* In a drive that has another key-encryption key the paper is of no use. */
static int another_drive(void)
{
    uint8_t other[TUFFALEEN_KEK_BYTES] = {0};
    int different = tuffaleen_start(image, sizeof image, marks, sizeof marks, other) != TUFFALEEN_DONE;
    different |= differs("another drive: two tags for namespace 1", ask("010102"), TUFFALEEN_DONE);
    return different | differs("the paper there", ask(paper), TUFFALEEN_INTEGRITY_FAILED);
}

int main(void)
{
    for (size_t i = 0; i < sizeof kek; i++)
        kek[i] = i;
    int different = office();
    different |= drive();
    different |= another_drive();
    wipe(kek, sizeof kek);
    wipe(image, sizeof image);
    if (different)
        puts("different: these are not the answers awaited");
    return different;
}
