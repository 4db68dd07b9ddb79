/* The drive inside a C program: the power went, another key was loaded, and its read is refused. Build it with
 * gcc -Iinclude examples/embed.c target/staticlib/libtuffaleen_c.a */
#include <stdio.h>
#include <string.h>
#include <tuffaleen.h>

#define HERON "054845524F4E" "1111111111111111111111111111111111111111111111111111111111111111"
#define OTTER "054F54544552" "2222222222222222222222222222222222222222222222222222222222222222"

/* Namespace 1, blocks 20 to 29, CETYPE 1, key tag 0: a 64-byte NVMe command, after the kind and the opcode. */
#define BLOCKS_20_TO_29 "00000001000000" "0000000000000000000000000000000000000000000000000000000000000000" \
                        "1400000000000000" "0900" "0100" "0000" "00000000000000000000"

static uint8_t image[TUFFALEEN_IMAGE_BYTES], marks[TUFFALEEN_MARKS_BYTES];

/* Opens wrapped keys. None comes here, so any will do. */
static const uint8_t kek[TUFFALEEN_KEK_BYTES];

static const struct { const char *what, *line; uint16_t answer; } steps[] = {
    {"one tag for namespace 1", "010101", TUFFALEEN_DONE},
    {"load HERON under tag 0", "03010000" HERON, TUFFALEEN_DONE},
    {"write blocks 20 to 29", "0701" BLOCKS_20_TO_29, TUFFALEEN_DONE},
    {"power cycle", "0B01", TUFFALEEN_DONE},
    {"read: no key is loaded", "0702" BLOCKS_20_TO_29, TUFFALEEN_INVALID_KEY_TAG},
    {"load OTTER under tag 0", "03010000" OTTER, TUFFALEEN_DONE},
    {"read: written under HERON", "0702" BLOCKS_20_TO_29, TUFFALEEN_WRONG_KEY},
};

int main(void)
{
    int different = tuffaleen_start(image, sizeof image, marks, sizeof marks, kek) != TUFFALEEN_DONE;
    for (size_t i = 0; i < sizeof steps / sizeof *steps; i++) {
        uint8_t out[TUFFALEEN_ANSWER_BYTES];
        size_t written;
        uint16_t answer = tuffaleen_line(image, sizeof image, marks, sizeof marks, (const uint8_t *)steps[i].line,
                                         strlen(steps[i].line), out, sizeof out, &written);
        printf("%-26s %.*s", steps[i].what, (int)written, (const char *)out);
        different |= answer != steps[i].answer;
    }
    if (different)
        puts("different: these are not the answers awaited");
    return different;
}
