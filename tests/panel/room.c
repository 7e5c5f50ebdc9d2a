/* Opens a frame into every room from 0 to 20 bytes: too little room is refused by 5 and changes nothing, and enough room
 * leaves what lies behind the shown places. Prints the first thing that is wrong. */
#include <nolbashi.h>

#include <stdio.h>
#include <string.h>

enum { MOST = 20, FILLER = 0xA5 };

static const uint8_t SCROLL[] = {0x09, 0x8F, 0x26};

static int all_filler(const uint8_t *bytes, size_t from, size_t to)
{
    for (size_t i = from; i < to; i++) {
        if (bytes[i] != FILLER) return 0;
    }
    return 1;
}

int main(void)
{
    for (size_t room = 0; room <= MOST; room++) {
        uint8_t shown[MOST];
        memset(shown, FILLER, sizeof shown);
        uint8_t answer = nolbashi_open_frame(SCROLL, sizeof SCROLL, shown, room);
        size_t written = room < NOLBASHI_SHOWN ? 0 : NOLBASHI_SHOWN;
        if (answer != (room < NOLBASHI_SHOWN ? NOLBASHI_SHORT_BUFFER : NOLBASHI_OPENED)) {
            printf("room %zu: answer %u\n", room, answer);
            return 1;
        }
        if (!all_filler(shown, written, sizeof shown)) {
            printf("room %zu: bytes behind were changed\n", room);
            return 1;
        }
    }
    uint8_t shown[NOLBASHI_SHOWN];
    memset(shown, FILLER, sizeof shown);
    uint8_t answer = nolbashi_open_frame(SCROLL, 2, shown, sizeof shown);
    if (answer != NOLBASHI_STUB || !all_filler(shown, 0, sizeof shown)) {
        puts("a refusal changed something");
        return 1;
    }
    puts("rooms 0 to 20: as they should be");
    return 0;
}
