/* What a call leaves on the stack: no run of bytes of a key, of the key-encryption key, or of a wrapped key, and none of
 * their words as the processor keeps them. Each call runs on a stack of its own, filled before and searched behind it.
 * That the search finds a key that is left is tried first. What the compiler keeps in registers is not seen here; the
 * contracts say nothing of either. And how deep it goes: no deeper than the header says. */
#include <stdio.h>
#include <stdlib.h>
#include <string.h>
#include <tuffaleen.h>
#include <ucontext.h>

#define STACK (1 << 20)
#define RUN 4 /* bytes in a row that are a find */
/* What the header says that a call takes at most, and what of the depth seen here is not the call's: the frame that it
 * is made from, and what memcpy and memset take. The 128 bytes that a leaf uses below its frame are seen, and are the
 * call's. */
#define CALL_STACK 3600
#define NOT_OURS 64

static uint8_t image[TUFFALEEN_IMAGE_BYTES], marks[TUFFALEEN_MARKS_BYTES], out[4096], stack[STACK];
static uint8_t key[32], kek[TUFFALEEN_KEK_BYTES], shut[TUFFALEEN_WRAPPED_BYTES], bytes[TUFFALEEN_WRAPPED_BYTES];
static uint32_t words[TUFFALEEN_ROUND_KEY_WORDS];
static char line[TUFFALEEN_LINE_BYTES + 1];
static size_t length;
static uint16_t answer;
static ucontext_t caller, callee;
static uint8_t *caller_at; /* where the frame of the function that calls lies */
static int different, calls;

static void one_line(void)
{
    size_t written;
    caller_at = __builtin_frame_address(0);
    answer = tuffaleen_line(image, sizeof image, marks, sizeof marks, (const uint8_t *)line, length, out, sizeof out,
                            &written);
}

static void session(void)
{
    size_t lines, written;
    caller_at = __builtin_frame_address(0);
    answer = tuffaleen_session(image, sizeof image, marks, sizeof marks, (const uint8_t *)line, length, out,
                               sizeof out, &lines, &written);
}

static void message(void)
{
    size_t written;
    caller_at = __builtin_frame_address(0);
    answer = tuffaleen_message(1, 1, kek, 16, key, sizeof key, out, sizeof out, &written);
}

/* The two work in the caller's memory, which is static here. */
static void wrap(void)
{
    caller_at = __builtin_frame_address(0);
    tuffaleen_wrap(kek, bytes, words);
    answer = TUFFALEEN_DONE;
}

static void unwrap(void)
{
    caller_at = __builtin_frame_address(0);
    answer = tuffaleen_unwrap(kek, bytes, words);
}

static void start(void)
{
    caller_at = __builtin_frame_address(0);
    answer = tuffaleen_start(image, sizeof image, marks, sizeof marks, kek);
}

/* Leave a key, and its words, so that the search is tried. */
static void careless(void)
{
    volatile uint8_t copy[sizeof key];
    for (size_t i = 0; i < sizeof key; i++)
        copy[i] = key[i];
    (void)copy[0];
}

static void careless_of_words(void)
{
    volatile uint8_t copy[sizeof key];
    for (size_t i = 0; i < sizeof key; i++)
        copy[i] = key[i ^ 3];
    (void)copy[0];
}

/* Goes too deep, so that the depth is tried too. */
static void too_deep(void)
{
    volatile uint8_t deep[CALL_STACK + 2 * NOT_OURS];
    caller_at = __builtin_frame_address(0);
    deep[0] = 1;
    (void)deep[0];
}

static void on_own_stack(void (*call)(void))
{
    memset(stack, 0xEE, sizeof stack);
    getcontext(&callee);
    callee.uc_stack.ss_sp = stack;
    callee.uc_stack.ss_size = sizeof stack;
    callee.uc_link = &caller;
    makecontext(&callee, call, 0);
    swapcontext(&caller, &callee);
}

/* How many places of the stack begin a run of these bytes. */
static int run_of(const uint8_t *secret, size_t n)
{
    int places = 0;
    for (size_t at = 0; at + RUN <= sizeof stack; at++)
        for (size_t i = 0; stack[at] != 0xEE && i + RUN <= n; i++)
            places += memcmp(stack + at, secret + i, RUN) == 0;
    return places;
}

/* The same of the bytes and of their words, each four of them turned round: so lie round keys, the first eight of which
 * are the key-encryption key, and a block of AES. */
static int found(const uint8_t *secret, size_t n)
{
    uint8_t turned[sizeof shut];
    for (size_t i = 0; i < n; i++)
        turned[i] = secret[i ^ 3];
    return run_of(secret, n) + run_of(turned, n);
}

static size_t depth(void)
{
    size_t untouched = 0;
    while (stack[untouched] == 0xEE)
        untouched++;
    return (size_t)(caller_at - (stack + untouched));
}

static void frame(const uint8_t *bytes, size_t n)
{
    for (length = 0; length < 2 * n; length += 2)
        sprintf(line + length, "%02X", bytes[length / 2]);
}

/* The call: this answer, nothing of the three left (but for what unwrap was handed), and no deeper than the header says. */
static void call_leaves_nothing(const char *what, void (*call)(void), uint16_t awaited)
{
    on_own_stack(call);
    int places = found(key, sizeof key) + found(kek, sizeof kek) + (call == unwrap ? 0 : found(shut, sizeof shut));
    if (places != 0 || answer != awaited) {
        printf("left-behind: different: %s answers %04X and leaves %d runs of a key\n", what, answer, places);
        different = 1;
    }
    if (depth() > CALL_STACK + NOT_OURS) {
        printf("left-behind: different: %s goes %zu bytes deep\n", what, depth());
        different = 1;
    }
    calls++;
}

/* The frame's line, by itself or as a session of one. */
static void leaves_nothing(const char *what, const uint8_t *frame_of, size_t n, void (*call)(void), uint16_t awaited)
{
    frame(frame_of, n);
    call_leaves_nothing(what, call, call == session ? TUFFALEEN_DONE : awaited);
}

static void kinds(void (*call)(void))
{
    uint8_t load[38] = {0x03, 1, 0, 0, 1, 0xAA}, replace[40] = {0x04, 1, 0, 0, 1, 0xAA, 1, 0xBB};
    uint8_t wrapped[46] = {0x0E, 1, 3, 0, 1, 0xDD}, message[512] = {0x0D, 1, 1, 0};
    size_t size;
    tuffaleen_start(image, sizeof image, marks, sizeof marks, kek);
    leaves_nothing("manage", (const uint8_t[]){0x01, 1, 5}, 3, call, 0x0000);
    memcpy(load + 6, key, sizeof key);
    leaves_nothing("a load", load, sizeof load, call, 0x0000);
    leaves_nothing("a load again", load, sizeof load, call, 0x0709);
    memcpy(replace + 8, key, sizeof key);
    leaves_nothing("a replace", replace, sizeof replace, call, 0x0000);
    tuffaleen_message(1, 1, (const uint8_t[]){0xCC}, 1, key, sizeof key, message + 4, sizeof message - 4, &size);
    leaves_nothing("a message", message, 4 + size, call, 0x0000);
    message[2] = 2;
    leaves_nothing("a message for another tag", message, 4 + size, call, 0x0717);
    memcpy(wrapped + 6, shut, sizeof shut);
    leaves_nothing("a wrapped load", wrapped, sizeof wrapped, call, 0x0000);
    wrapped[2] = 4;
    wrapped[45] ^= 1;
    leaves_nothing("a wrapped key that does not open", wrapped, sizeof wrapped, call, 0x0710);
}

int main(void)
{
    for (size_t i = 0; i < sizeof key; i++) {
        key[i] = (uint8_t)(37 * i + 11);
        kek[i] = (uint8_t)(91 * i + 200);
    }
    memcpy(shut + 8, key, sizeof key);
    tuffaleen_wrap(kek, shut, words);
    on_own_stack(careless);
    int seen = found(key, sizeof key) != 0;
    on_own_stack(careless_of_words);
    if (!seen || found(key, sizeof key) == 0) {
        puts("left-behind: different: a key that is left is not found");
        return 1;
    }
    on_own_stack(too_deep);
    if (depth() <= CALL_STACK + NOT_OURS) {
        puts("left-behind: different: a call that goes too deep is not seen");
        return 1;
    }
    kinds(one_line);
    kinds(session);
    call_leaves_nothing("start", start, TUFFALEEN_DONE);
    call_leaves_nothing("a message written", message, TUFFALEEN_DONE);
    memcpy(bytes + 8, key, sizeof key);
    call_leaves_nothing("a key wrapped", wrap, TUFFALEEN_DONE);
    call_leaves_nothing("a key opened", unwrap, TUFFALEEN_DONE);
    if (!different)
        printf("left-behind: of %d calls none leaves a key on the stack, one that does is seen, and none goes deeper than %d\n",
               calls, CALL_STACK);
    return different;
}
