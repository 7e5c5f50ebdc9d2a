/* Opens frames that are given in hexadecimal, each an argument or, without arguments, each a line of standard input,
 * and prints what it finds. */
#include <nolbashi.h>

#include <stdio.h>
#include <stdlib.h>
#include <string.h>

struct place {
    const char *name;
    size_t at;
};

static const struct place PLACES[] = {
    {"SNR", NOLBASHI_SNR},
    {"ADDRESS", NOLBASHI_ADDRESS},
    {"BYTE_MASK", NOLBASHI_BYTE_MASK},
    {"WORD_DATA", NOLBASHI_WORD_DATA},
    {"BLOCK_DATA", NOLBASHI_BLOCK_DATA},
    {"LENGTH", NOLBASHI_LENGTH},
    {"IGNORED", NOLBASHI_IGNORED},
};

static const char *refusal_name(uint8_t refusal)
{
    switch (refusal) {
    case NOLBASHI_STUB: return "stub";
    case NOLBASHI_CHECK: return "check";
    case NOLBASHI_UNKNOWN_CODE: return "code";
    case NOLBASHI_WRONG_LENGTH: return "length";
    case NOLBASHI_SHORT_BUFFER: return "buffer";
    default: return "unknown";
    }
}

static int digit(char letter)
{
    if (letter >= '0' && letter <= '9') return letter - '0';
    if (letter >= 'A' && letter <= 'F') return letter - 'A' + 10;
    if (letter >= 'a' && letter <= 'f') return letter - 'a' + 10;
    return -1;
}

/* The bytes of a text, in memory of exactly their length where there are any, so that a read past them is seen. */
static uint8_t *read_bytes(const char *text, size_t letters, size_t *length)
{
    uint8_t *bytes = malloc(letters >= 2 ? letters / 2 : 1);

    if (bytes == NULL) return NULL;
    for (size_t i = 0; i + 1 < letters; i += 2) {
        int high = digit(text[i]);
        int low = digit(text[i + 1]);
        if (high < 0 || low < 0) {
            free(bytes);
            return NULL;
        }
        bytes[i / 2] = (uint8_t)(high * 16 + low);
    }
    if (letters % 2 != 0) {
        free(bytes);
        return NULL;
    }
    *length = letters / 2;
    return bytes;
}

static void print_frame(const uint8_t *frame, const uint8_t *shown)
{
    printf("opened %02X", shown[NOLBASHI_CODE]);
    for (size_t i = 0; i < sizeof PLACES / sizeof PLACES[0]; i++) {
        size_t offset = shown[PLACES[i].at];
        size_t length = shown[PLACES[i].at + 1];
        if (length == 0) continue;
        printf(" %s@%zu=", PLACES[i].name, offset);
        for (size_t k = 0; k < length; k++) printf("%02X", frame[offset + k]);
    }
    putchar('\n');
}

/* Prints one line. Answers 0, or 1 where the text is not bytes in hexadecimal. */
static int open_text(const char *text, size_t letters)
{
    size_t length = 0;
    uint8_t *frame = read_bytes(text, letters, &length);
    uint8_t shown[NOLBASHI_SHOWN] = {0};

    if (frame == NULL) {
        fprintf(stderr, "not bytes in hexadecimal, two digits for each: %.*s\n", letters < 60 ? (int)letters : 60, text);
        return 1;
    }
    uint16_t value = nolbashi_check_value_of(frame, length >= 2 ? length - 2 : 0);
    printf("%zu bytes, check value %04X: ", length, value);
    uint8_t refusal = nolbashi_open_frame(frame, length, shown, sizeof shown);
    if (refusal == NOLBASHI_OPENED) {
        print_frame(frame, shown);
    } else {
        printf("refused %u %s\n", refusal, refusal_name(refusal));
    }
    free(frame);
    return 0;
}

static int open_lines(FILE *input)
{
    char *line = NULL;
    size_t room = 0;
    int failed = 0;
    ssize_t got;

    while ((got = getline(&line, &room, input)) >= 0) {
        size_t letters = (size_t)got;
        if (letters > 0 && line[letters - 1] == '\n') letters--;
        failed |= open_text(line, letters);
    }
    free(line);
    return failed;
}

int main(int count, char **arguments)
{
    int failed = 0;

    if (count < 2) return open_lines(stdin);
    for (int i = 1; i < count; i++) failed |= open_text(arguments[i], strlen(arguments[i]));
    return failed;
}
