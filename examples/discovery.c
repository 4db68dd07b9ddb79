/* A host asks a drive what it can do, before it sends a key. Build it with
 * gcc -Iinclude examples/discovery.c target/staticlib/libtuffaleen_c.a */
#include <stdio.h>
#include <tuffaleen.h>

/* Behind the answer's number, and without the line feed, two digits for each byte of the response. */
#define NUMBER_DIGITS 4
#define RESPONSE_BYTES ((TUFFALEEN_DISCOVERY_BYTES - NUMBER_DIGITS - 1) / 2)

static uint8_t image[TUFFALEEN_IMAGE_BYTES], marks[TUFFALEEN_MARKS_BYTES], response[RESPONSE_BYTES];
static uint32_t fields[TUFFALEEN_DISCOVERY_FIELDS];

/* Opens wrapped keys. None comes here, so any will do. */
static const uint8_t kek[TUFFALEEN_KEK_BYTES];

/* What a host may want to know, and what our drive tells. */
struct known { const char *what; int place; uint32_t awaited; };

static const struct known numbers[] = {
    {"bytes in a KeyUID, at most (0: any)", TUFFALEEN_MAXIMUM_KEY_UID_LENGTH, 16},
    {"key tags in all", TUFFALEEN_TOTAL_NUMBER_OF_KEY_TAGS, 256},
    {"key tags in a namespace, at most", TUFFALEEN_MAXIMUM_KEY_TAGS_PER_NAMESPACE, 128},
    {"keys that open wrapped keys", TUFFALEEN_NUMBER_OF_KEY_ENCRYPTION_KEYS, 1},
};

static const struct known abilities[] = {
    {"keys can be used", TUFFALEEN_ENABLED, 1},
    {"a read with a wrong key is noticed", TUFFALEEN_INCORRECT_KEY_DETECTION_SUPPORTED, 1},
    {"a key comes without a tweak key", TUFFALEEN_SHARED_TWEAK_KEY_REQUIRED, 1},
    {"all namespaces are managed together", TUFFALEEN_SCOPE, 0},
    {"a key may come in a KMIP message", TUFFALEEN_KMIP_KEY_INJECTION_SUPPORTED, 1},
    {"a key may come wrapped with AES-KW", TUFFALEEN_AES_KW_SUPPORTED, 1},
    {"what wraps it is a key of AES-256", TUFFALEEN_AES_256_WRAPPING_KEY_SUPPORTED, 1},
    {"replays are kept out", TUFFALEEN_REPLAY_PROTECTION_SUPPORTED, 0},
};

static uint8_t digit(uint8_t letter)
{
    return letter <= '9' ? letter - '0' : letter - 'A' + 10;
}

/* Asks the drive for its response. The line 0C needs more room than any other. */
static int ask(void)
{
    uint8_t out[TUFFALEEN_DISCOVERY_BYTES];
    size_t written;
    uint16_t answer = tuffaleen_line(image, sizeof image, marks, sizeof marks, (const uint8_t *)"0C", 2,
                                     out, sizeof out, &written);
    if (answer != TUFFALEEN_DONE || written != sizeof out)
        return 0;
    for (size_t i = 0; i < sizeof response; i++) {
        const uint8_t *pair = out + NUMBER_DIGITS + 2 * i;
        response[i] = digit(pair[0]) << 4 | digit(pair[1]);
    }
    return 1;
}

static int show_fields(void)
{
    int different = 0;
    for (size_t i = 0; i < sizeof numbers / sizeof *numbers; i++) {
        printf("  %-36s %u\n", numbers[i].what, (unsigned)fields[numbers[i].place]);
        different |= fields[numbers[i].place] != numbers[i].awaited;
    }
    for (size_t i = 0; i < sizeof abilities / sizeof *abilities; i++) {
        printf("  %-36s %s\n", abilities[i].what, fields[abilities[i].place] ? "yes" : "no");
        different |= fields[abilities[i].place] != abilities[i].awaited;
    }
    return different;
}

/* Reads what a drive sent: `len` bytes of it came. Without the Key Per I/O feature no key is sent. */
static int differs(const char *what, size_t len, uint16_t awaited, uint32_t awaited_keys)
{
    uint16_t answer = tuffaleen_discovery(response, len, fields, TUFFALEEN_DISCOVERY_FIELDS);
    printf("%s: ", what);
    if (answer != TUFFALEEN_DONE) {
        printf("sorry, this is no discovery response (%04X); no key is sent\n", (unsigned)answer);
        return answer != awaited;
    }
    uint32_t keys = fields[TUFFALEEN_KEY_PER_IO_FOUND];
    puts(keys ? "a drive that takes keys" : "a drive that takes no keys");
    return answer != awaited || keys != awaited_keys || (keys && show_fields());
}

int main(void)
{
    int different = tuffaleen_start(image, sizeof image, marks, sizeof marks, kek) != TUFFALEEN_DONE;
    different |= !ask();
    different |= differs("our drive", sizeof response, TUFFALEEN_DONE, 1);
    different |= differs("the same, its last byte lost", sizeof response - 1, TUFFALEEN_NOT_A_RESPONSE, 0);

    /* The length, which does not count its own 4 bytes, ends behind a header of 48 bytes and a TPer feature of 16. */
    response[3] = 48 + 16 - 4;
    different |= differs("a drive of another kind", sizeof response, TUFFALEEN_DONE, 0);
    if (different)
        puts("different: these are not the answers awaited");
    return different;
}
