/* The power goes inside a C program: what to store, and how to make the image anew from it. Build it with
 * gcc -Iinclude examples/power-loss.c target/staticlib/libtuffaleen_c.a */
#include <stdio.h>
#include <string.h>
#include <tuffaleen.h>

#define HERON "054845524F4E" "1111111111111111111111111111111111111111111111111111111111111111"
#define OTTER "054F54544552" "2222222222222222222222222222222222222222222222222222222222222222"

/* The same key of HERON, wrapped with the key-encryption key below. */
#define WRAPPED_HERON "054845524F4E" \
    "801B521D957E5A3602BD18A3B11512CC9FB0822DD0D34969123DA8B1DAB7E8072A5BE56EC9B7F4C9"

/* Namespace 2, blocks 20 to 29, CETYPE 1, key tag 0: a 64-byte NVMe command, after the kind and the opcode. */
#define BLOCKS_20_TO_29 "00000002000000" "0000000000000000000000000000000000000000000000000000000000000000" \
                        "1400000000000000" "0900" "0100" "0000" "00000000000000000000"

static uint8_t image[TUFFALEEN_IMAGE_BYTES], marks[TUFFALEEN_MARKS_BYTES];

/* What outlasts the power. No key is in it. */
static struct { uint8_t version, counts[4], marks[TUFFALEEN_MARKS_BYTES]; } flash;

/* What outlasts it too, in a place of its own, where the maker put it: the key-encryption key. */
static const uint8_t fuses[TUFFALEEN_KEK_BYTES] = {
    0x00, 0x01, 0x02, 0x03, 0x04, 0x05, 0x06, 0x07, 0x08, 0x09, 0x0A, 0x0B, 0x0C, 0x0D, 0x0E, 0x0F,
    0x10, 0x11, 0x12, 0x13, 0x14, 0x15, 0x16, 0x17, 0x18, 0x19, 0x1A, 0x1B, 0x1C, 0x1D, 0x1E, 0x1F,
};

static void store(void)
{
    flash.version = TUFFALEEN_LAYOUT_VERSION;
    memcpy(flash.counts, image + TUFFALEEN_COUNTS_AT, sizeof flash.counts);
    memcpy(flash.marks, marks, sizeof marks);
}

static int restore(void)
{
    if (flash.version != TUFFALEEN_LAYOUT_VERSION)
        return 0;
    memset(image, 0, sizeof image);
    memcpy(image + TUFFALEEN_COUNTS_AT, flash.counts, sizeof flash.counts);
    memset(image + TUFFALEEN_LOCKS_AT, TUFFALEEN_WRITE_LOCKED, 2);
    memcpy(image + TUFFALEEN_KEK_AT, fuses, sizeof fuses);
    memcpy(marks, flash.marks, sizeof marks);
    return 1;
}

static int differs(const char *what, const char *line, uint16_t awaited)
{
    uint8_t out[TUFFALEEN_ANSWER_BYTES];
    size_t written;
    uint16_t answer = tuffaleen_line(image, sizeof image, marks, sizeof marks, (const uint8_t *)line, strlen(line),
                                     out, sizeof out, &written);
    printf("%-30s %.*s", what, (int)written, (const char *)out);
    return answer != awaited;
}

static int before_the_loss(void)
{
    int different = tuffaleen_start(image, sizeof image, marks, sizeof marks, fuses) != TUFFALEEN_DONE;
    different |= differs("one tag for namespace 2", "010201", TUFFALEEN_DONE);
    different |= differs("load HERON under tag 0", "03020000" HERON, TUFFALEEN_DONE);
    different |= differs("write blocks 20 to 29", "0701" BLOCKS_20_TO_29, TUFFALEEN_DONE);
    different |= differs("unlock boot partition 0", "0801000000", TUFFALEEN_DONE);
    store();
    return different;
}

static int loss(void)
{
    static uint8_t cycled_image[TUFFALEEN_IMAGE_BYTES], cycled_marks[TUFFALEEN_MARKS_BYTES];
    int different = differs("the line 0B01, to compare with", "0B01", TUFFALEEN_DONE);
    memcpy(cycled_image, image, sizeof image);
    memcpy(cycled_marks, marks, sizeof marks);

    memset(image, 0xA5, sizeof image);
    memset(marks, 0xA5, sizeof marks);
    different |= !restore();
    int same = memcmp(image, cycled_image, sizeof image) == 0 && memcmp(marks, cycled_marks, sizeof marks) == 0;
    printf("%-30s %s\n", "the power goes; made anew", same ? "the bytes that 0B01 makes" : "other bytes");
    return different || !same;
}

static int after_the_loss(void)
{
    int different = differs("read: no key is loaded", "0702" BLOCKS_20_TO_29, TUFFALEEN_INVALID_KEY_TAG);
    different |= differs("load OTTER under tag 0", "03020000" OTTER, TUFFALEEN_DONE);
    different |= differs("read: written under HERON", "0702" BLOCKS_20_TO_29, TUFFALEEN_WRONG_KEY);
    different |= differs("clear tag 0", "05020000", TUFFALEEN_DONE);
    different |= differs("load HERON, wrapped", "0E020000" WRAPPED_HERON, TUFFALEEN_DONE);
    different |= differs("read blocks 20 to 29", "0702" BLOCKS_20_TO_29, TUFFALEEN_DONE);
    return different;
}

int main(void)
{
    int different = before_the_loss();
    different |= loss();
    different |= after_the_loss();
    if (different)
        puts("different: these are not the answers awaited");
    return different;
}
