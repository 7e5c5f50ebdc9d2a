/* Gives null pointers with length 0 to each call of the header, for each pointer alone and for both. Prints the first
 * answer that is wrong. It is C and C++. */
#include <nolbashi.h>

#include <stdio.h>
#include <string.h>

enum { FILLER = 0xA5 };

static const uint8_t SCROLL[] = {0x09, 0x8F, 0x26};
static const uint8_t DAMAGED[] = {0x09, 0x8F, 0x27};
static const uint8_t UNKNOWN_CODE[] = {0xFF, 0x00, 0xFF};
static const uint8_t WRONG_LENGTH[] = {0x08, 0x00, 0x6B, 0x59};

static int answers(const char *what, unsigned wanted, unsigned found)
{
    if (wanted == found) return 1;
    printf("%s: %u and not %u\n", what, found, wanted);
    return 0;
}

/* A frame that opens is refused for its room alone, and any other as it is with room. */
static int without_room(void)
{
    return answers("a frame, no room", NOLBASHI_SHORT_BUFFER, nolbashi_open_frame(SCROLL, sizeof SCROLL, NULL, 0)) &&
        answers("a stub, no room", NOLBASHI_STUB, nolbashi_open_frame(SCROLL, 2, NULL, 0)) &&
        answers("a damaged frame, no room", NOLBASHI_CHECK, nolbashi_open_frame(DAMAGED, sizeof DAMAGED, NULL, 0)) &&
        answers("no command, no room", NOLBASHI_UNKNOWN_CODE,
            nolbashi_open_frame(UNKNOWN_CODE, sizeof UNKNOWN_CODE, NULL, 0)) &&
        answers("a long frame, no room", NOLBASHI_WRONG_LENGTH,
            nolbashi_open_frame(WRONG_LENGTH, sizeof WRONG_LENGTH, NULL, 0));
}

static int without_frame(void)
{
    uint8_t shown[NOLBASHI_SHOWN];
    uint8_t before[NOLBASHI_SHOWN];

    memset(shown, FILLER, sizeof shown);
    memset(before, FILLER, sizeof before);
    return answers("no frame", NOLBASHI_STUB, nolbashi_open_frame(NULL, 0, shown, sizeof shown)) &&
        answers("no frame, no room", NOLBASHI_STUB, nolbashi_open_frame(NULL, 0, NULL, 0)) &&
        answers("what no frame changes", 0, memcmp(shown, before, sizeof shown) != 0);
}

int main(void)
{
    if (!answers("no message", 0, nolbashi_check_value_of(NULL, 0))) return 1;
    if (!without_room() || !without_frame()) return 1;
    puts("null pointers with length 0: as they should be");
    return 0;
}
