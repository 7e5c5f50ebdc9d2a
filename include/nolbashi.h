/* Nolbashi's calls for the generator's panel: the check value of a message, and the opening of a frame.
 *
 * Compile with -Iinclude as C99 or later, or as C++, and link with libpanel.a.
 *
 * Call nolbashi_check_value_of and nolbashi_open_frame. Every length counts bytes, 0 is a length like any other, and a
 * pointer whose length is 0 is not looked at, so it may be null. A pointer whose length is not 0 must point at so many
 * bytes, and the two buffers of nolbashi_open_frame must not overlap; nothing checks that. No call keeps a pointer,
 * allocates, reads or writes outside the bytes that it is given, has a state of its own, or fails to return, so calls
 * may be made from an interrupt and from several threads at once. */
#ifndef NOLBASHI_H
#define NOLBASHI_H

#include <stddef.h>
#include <stdint.h>

#ifdef __cplusplus
extern "C" {
#endif

/* What the opening of a frame answers: 0, or why not. Of several refusals that fit, the first in this order is
 * answered. */
enum nolbashi_refusal {
    NOLBASHI_OPENED = 0,
    NOLBASHI_STUB = 1,          /* the frame has under 3 bytes */
    NOLBASHI_CHECK = 2,         /* its check value, the last two bytes, is wrong */
    NOLBASHI_UNKNOWN_CODE = 3,  /* no command has its code, the first byte */
    NOLBASHI_WRONG_LENGTH = 4,  /* it is longer or shorter than the frames of its code */
    NOLBASHI_SHORT_BUFFER = 5   /* it opens, but there is room for fewer than NOLBASHI_SHOWN bytes */
};

/* What an opened frame shows, one byte at each place: the frame's code, and then two bytes for each parameter. At the
 * place that is named here stands how many bytes of the frame come before the parameter, and at the next place how
 * many bytes it has. One that the command does not have shows 0 and 0; one that it has shows neither as 0. */
enum nolbashi_place {
    NOLBASHI_CODE = 0,
    NOLBASHI_SNR = 1,           /* the serial number of the tag that is meant: 8 bytes */
    NOLBASHI_ADDRESS = 3,       /* an address in the tag's memory: 1 byte */
    NOLBASHI_BYTE_MASK = 5,     /* which of the data bytes count, the highest bit for the first: 1 byte */
    NOLBASHI_WORD_DATA = 7,     /* bytes to compare with: 8 bytes */
    NOLBASHI_BLOCK_DATA = 9,    /* bytes to write: 4 bytes */
    NOLBASHI_LENGTH = 11,       /* one less than the number of bytes to read: 1 byte */
    NOLBASHI_IGNORED = 13,      /* bytes that no tag looks at: 2 bytes */
    NOLBASHI_SHOWN = 15         /* how many bytes are shown */
};

/* The library's own symbols. They are as the calls below, but for this: here a pointer must not be null, also where
 * its length is 0. */
uint16_t nolbashi_check_value(const uint8_t *message, size_t message_length);
uint8_t nolbashi_open(const uint8_t *frame, size_t frame_length, uint8_t *shown, size_t room);

/* The check value of a message of `message_length` bytes, as a number. It is sent behind the message, the high byte
 * first. That of no bytes is 0. */
static inline uint16_t nolbashi_check_value_of(const uint8_t *message, size_t message_length)
{
    const uint8_t nothing = 0;

    return nolbashi_check_value(message_length == 0 ? &nothing : message, message_length);
}

/* Opens the frame of `frame_length` bytes, and shows what it holds in `shown`, a buffer of `room` bytes. Answers 0
 * (NOLBASHI_OPENED), and then the first NOLBASHI_SHOWN bytes of `shown` are written, and no byte behind them; or the
 * number of another nolbashi_refusal, 1 to 5, and then no byte of `shown` is written. */
static inline uint8_t nolbashi_open_frame(const uint8_t *frame, size_t frame_length, uint8_t *shown, size_t room)
{
    const uint8_t no_frame = 0;
    uint8_t no_room = 0;

    return nolbashi_open(frame_length == 0 ? &no_frame : frame, frame_length, room == 0 ? &no_room : shown, room);
}

#ifdef __cplusplus
}
#endif

#endif
