/* A console inside a C program: lines were typed wrong, and the drive says which digit. Build it with
 * gcc -Iinclude examples/bad-line.c target/staticlib/libtuffaleen_c.a */
#include <stdio.h>
#include <string.h>
#include <tuffaleen.h>

static uint8_t image[TUFFALEEN_IMAGE_BYTES], marks[TUFFALEEN_MARKS_BYTES], out[TUFFALEEN_ANSWER_BYTES];

/* Opens wrapped keys. None comes here, so any will do. */
static const uint8_t kek[TUFFALEEN_KEK_BYTES];

/* What was typed, and what the drive must say of it. Two tags for namespace 1 are meant. */
static const struct { const char *line; int reason, place; } typed[] = {
    {"O10102", TUFFALEEN_LINE_BAD_DIGIT, 0},
    {"0101o2", TUFFALEEN_LINE_BAD_DIGIT, 4},
    {"0101 02", TUFFALEEN_LINE_BAD_DIGIT, 4},
    {"01010Z", TUFFALEEN_LINE_BAD_DIGIT, 5},
    {"01010", TUFFALEEN_LINE_ODD, 0},
    {"", TUFFALEEN_LINE_EMPTY, 0},
    {"010102", 0, 0},
};

static const char *const words[] = {
    [0] = "done",
    [TUFFALEEN_LINE_EMPTY] = "nothing was typed",
    [TUFFALEEN_LINE_TOO_LONG] = "too many digits",
    [TUFFALEEN_LINE_BAD_DIGIT] = "^ this is no digit: 0-9 and A-F are",
    [TUFFALEEN_LINE_ODD] = "one digit is missing, or one too many",
};

static int digit(uint8_t character)
{
    return character <= '9' ? character - '0' : character - 'A' + 10;
}

/* The byte that two digits of the answer are. */
static int byte_at(size_t at)
{
    return digit(out[at]) << 4 | digit(out[at + 1]);
}

/* Sends a line and says what is wrong with it, below the character that is. */
static int differs(const char *line, int awaited_reason, int awaited_place)
{
    size_t written;
    int reason = 0, place = 0;
    uint16_t answer = tuffaleen_line(image, sizeof image, marks, sizeof marks, (const uint8_t *)line, strlen(line),
                                     out, sizeof out, &written);
    if (answer == TUFFALEEN_NOT_A_FRAME_LINE) {
        reason = byte_at(4);
        place = byte_at(6) | byte_at(8) << 8;
    }
    printf("%s\n%*s%s\n", line, place, "", words[reason]);
    return reason != awaited_reason || place != awaited_place || (reason == 0 && answer != TUFFALEEN_DONE);
}

int main(void)
{
    int different = tuffaleen_start(image, sizeof image, marks, sizeof marks, kek) != TUFFALEEN_DONE;
    for (size_t i = 0; i < sizeof typed / sizeof *typed; i++)
        different |= differs(typed[i].line, typed[i].reason, typed[i].place);
    if (different)
        puts("different: these are not the answers awaited");
    return different;
}
