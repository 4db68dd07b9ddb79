/* A session inside a C program: many lines answered by one call. Two productions have a key each in namespace 1.
 * Build it with gcc -Iinclude examples/session.c target/staticlib/libtuffaleen_c.a */
#include <stdio.h>
#include <string.h>
#include <tuffaleen.h>

#define HERON "054845524F4E" "1111111111111111111111111111111111111111111111111111111111111111"
#define OTTER "054F54544552" "2222222222222222222222222222222222222222222222222222222222222222"

/* Namespace 1, blocks 0 to 9, CETYPE 1: a 64-byte NVMe command, after the kind and the opcode. */
#define BLOCKS_0_TO_9_WITH_TAG(tag) \
    "00000001000000" "0000000000000000000000000000000000000000000000000000000000000000" \
    "0000000000000000" "0900" "0100" tag "00000000000000000000"

static uint8_t image[TUFFALEEN_IMAGE_BYTES], marks[TUFFALEEN_MARKS_BYTES];

/* Opens wrapped keys. None comes here, so any will do. */
static const uint8_t kek[TUFFALEEN_KEK_BYTES];

static const char text[] =
    "010102\n"
    "03010000" HERON "\n"
    "0701" BLOCKS_0_TO_9_WITH_TAG("0000") "\n"
    "03010000" OTTER "\n"
    "03010100" OTTER "\n"
    "0702" BLOCKS_0_TO_9_WITH_TAG("0100") "\n"
    "0702" BLOCKS_0_TO_9_WITH_TAG("0000") "\n"
    "09\n";

static const struct { const char *asked, *answer; } steps[] = {
    {"two tags for namespace 1", "0000\n"},
    {"load HERON under tag 0", "0000\n"},
    {"write blocks 0 to 9, tag 0", "0000\n"},
    {"load OTTER under tag 0: taken", "0709\n"},
    {"load OTTER under tag 1", "0000\n"},
    {"read blocks 0 to 9, tag 1", "0028\n"},
    {"read blocks 0 to 9, tag 0", "0000\n"},
    {"show the boot locks", "000012000000\n"},
};

#define LINES (sizeof steps / sizeof *steps)

static uint8_t out[LINES * TUFFALEEN_ANSWER_BYTES];

/* Prints each answer beside what was asked. Answers have no fixed length: each ends with its line feed. */
static int show(size_t written)
{
    size_t at = 0;
    int different = 0;
    for (size_t i = 0; i < LINES && at < written; i++) {
        size_t len = 1;
        while (out[at + len - 1] != '\n')
            len++;
        printf("%-30s %.*s", steps[i].asked, (int)len, (const char *)out + at);
        different |= len != strlen(steps[i].answer) || memcmp(out + at, steps[i].answer, len) != 0;
        at += len;
    }
    return different || at != written;
}

static uint16_t session(size_t out_len, size_t *lines, size_t *written)
{
    return tuffaleen_session(image, sizeof image, marks, sizeof marks, (const uint8_t *)text, strlen(text),
                             out, out_len, lines, written);
}

int main(void)
{
    size_t lines, written;
    int different = tuffaleen_start(image, sizeof image, marks, sizeof marks, kek) != TUFFALEEN_DONE;

    /* Room is judged for the whole text before its first line, so this call does nothing. */
    uint16_t result = session(sizeof out - 1, &lines, &written);
    printf("%-30s %04X\n", "an output one byte too short", (unsigned)result);
    different |= result != TUFFALEEN_OUTPUT_TOO_SHORT || lines != 0 || written != 0;

    result = session(sizeof out, &lines, &written);
    different |= result != TUFFALEEN_DONE || lines != LINES;
    different |= show(written);
    if (different)
        puts("different: these are not the answers awaited");
    return different;
}
