/* The program once more, through the library: standard input as one session, the answers to standard output. With names of
 * files NAME.in it answers each of them, from a fresh drive, and compares with NAME.out. Each buffer is a block of just its
 * length, so that valgrind sees a byte read or written beside one, and a byte that is told but was never written.
 * tests/under-valgrind builds and runs it. */
#include <stdio.h>
#include <stdlib.h>
#include <string.h>
#include <tuffaleen.h>

#define INPUT 4096
#define OUTPUT (INPUT * TUFFALEEN_ANSWER_BYTES)

struct bytes { uint8_t *at; size_t len; };

static struct bytes block(size_t len)
{
    struct bytes made = {malloc(len ? len : 1), len};
    if (!made.at)
        exit(2);
    return made;
}

/* What a file has, up to one byte more than a session may have. */
static struct bytes contents(FILE *file)
{
    static uint8_t read[OUTPUT + 1];
    struct bytes made = block(fread(read, 1, sizeof read, file));
    memcpy(made.at, read, made.len);
    return made;
}

/* The line of the number that refused the whole session. */
static struct bytes refusal(uint16_t number)
{
    char line[6];
    struct bytes made = block((size_t)snprintf(line, sizeof line, "%04X\n", number));
    memcpy(made.at, line, made.len);
    return made;
}

static struct bytes answers(struct bytes text)
{
    struct bytes image = block(TUFFALEEN_IMAGE_BYTES), marks = block(TUFFALEEN_MARKS_BYTES), out = block(OUTPUT);
    struct bytes kek = block(TUFFALEEN_KEK_BYTES);
    size_t lines;
    for (size_t i = 0; i < kek.len; i++)
        kek.at[i] = i;
    uint16_t number = tuffaleen_start(image.at, image.len, marks.at, marks.len, kek.at);
    free(kek.at);
    if (number == TUFFALEEN_DONE && text.len > INPUT)
        number = TUFFALEEN_OUTPUT_TOO_SHORT;
    if (number == TUFFALEEN_DONE)
        number = tuffaleen_session(image.at, image.len, marks.at, marks.len, text.at, text.len, out.at, out.len, &lines, &out.len);
    free(image.at);
    free(marks.at);
    if (number == TUFFALEEN_DONE)
        return out;
    free(out.at);
    return refusal(number);
}

static FILE *opened(const char *name)
{
    FILE *file = fopen(name, "rb");
    if (!file) {
        perror(name);
        exit(2);
    }
    return file;
}

/* NAME.in answered, against NAME.out. */
static int differs(const char *name)
{
    char awaited_name[4096];
    size_t stem = strlen(name) - strlen("in");
    snprintf(awaited_name, sizeof awaited_name, "%.*sout", (int)stem, name);
    FILE *in = opened(name), *out = opened(awaited_name);
    struct bytes text = contents(in), awaited = contents(out), told = answers(text);
    int different = told.len != awaited.len || memcmp(told.at, awaited.at, told.len) != 0;
    if (different)
        printf("different: %s\n", name);
    free(text.at);
    free(awaited.at);
    free(told.at);
    fclose(in);
    fclose(out);
    return different;
}

int main(int count, char **names)
{
    if (count == 1) {
        struct bytes text = contents(stdin), told = answers(text);
        fwrite(told.at, 1, told.len, stdout);
        free(text.at);
        free(told.at);
        return 0;
    }
    int different = 0;
    for (int i = 1; i < count; i++)
        different += differs(names[i]);
    printf("sessions through the library: %d same, %d different\n", count - 1 - different, different);
    return different != 0;
}
