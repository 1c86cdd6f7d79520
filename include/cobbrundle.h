/*
 * Cobbrundle: checks Quake DEM recordings (protocol 15, client view) and writes their normal form.
 *
 * A recording is accepted if, read whole from the scene at the start, it meets no refusal. Each function is proved to
 * answer what the definitions of recording, refusal and normal form say, for any bytes (crates/exports, crates/dem/specs).
 *
 * The functions allocate nothing and keep nothing between calls, so any number of threads may call them at once. A call
 * takes less than 320 KB of stack, as measured with an earlier kit (scripts/memory); that is not proved.
 *
 * What the caller owes: no pointer is null, also where a length is 0; `bytes` may be read for `length` bytes, `room`
 * may be read and written for `room_length` bytes; what a pointer lends for writing overlaps nothing else that is lent.
 *
 * To link: libexports.a, which `scripts/build-library exports` writes to target/staticlib (x86-64 Linux).
 */
#ifndef COBBRUNDLE_H
#define COBBRUNDLE_H

#include <stddef.h>
#include <stdint.h>

#ifdef __cplusplus
extern "C" {
#endif

/*
 * What a function returns: 0, or the number of the first refusal that is met. Of each, the place that comes with it,
 * counted in bytes from the first of the recording.
 */
enum cobbrundle_refusal {
    COBBRUNDLE_ACCEPTED = 0,
    /* The track line breaks the rule or ends early. The first wrong byte, or the recording's length. */
    COBBRUNDLE_WRONG_TRACK = 1,
    /* 1 to 15 bytes are left for a block head, or the body is shorter than its size. The block. */
    COBBRUNDLE_CUT_BLOCK = 2,
    /* A block's size is over 8,000. The block. */
    COBBRUNDLE_LONG_BLOCK = 3,
    /* An angle has exponent 255. The block. */
    COBBRUNDLE_WRONG_ANGLE = 4,
    /* The block ends inside a message. The message. */
    COBBRUNDLE_CUT_MESSAGE = 5,
    /* Message number 0, 21 or 35 to 127. The message. */
    COBBRUNDLE_UNKNOWN_MESSAGE = 6,
    /* A string has a byte FF, or no zero in its first 2,047 bytes. The message. */
    COBBRUNDLE_WRONG_STRING = 7,
    /* A reserved bit is set. The message. */
    COBBRUNDLE_RESERVED_BIT = 8,
    /* A number breaks its rule. The message. */
    COBBRUNDLE_WRONG_NUMBER = 9,
    /* A time that is negative, not finite, or before the last one. The message. */
    COBBRUNDLE_WRONG_TIME = 10,
    /* A message or any byte follows a disconnect. The first byte after it. */
    COBBRUNDLE_AFTER_DISCONNECT = 11,
    /* The room is shorter than the normal form. Not a place: the length that is needed. */
    COBBRUNDLE_SHORT_ROOM = 12
};

/*
 * Reads a recording whole, once.
 *
 * Accepted: returns 0. *track is the track number, -999 to 999; *blocks the number of blocks; *messages that of the
 * messages in all blocks; *place is 0.
 * Refused: returns 1 to 11. *place is the refusal's place; *track, *blocks and *messages are 0.
 */
uint8_t cobbrundle_check(const uint8_t *bytes, size_t length, size_t *place, int16_t *track, size_t *blocks,
                         size_t *messages);

/*
 * Writes a recording's normal form into room: the shortest bytes with the same reading. It is never longer than the
 * recording, so room of the recording's length is always enough.
 *
 * Written: returns 0. *written is the normal form's length; the first *written bytes of room are the normal form, and
 * those behind them are as they were; *place is 0.
 * Refused: returns 1 to 11 as cobbrundle_check does, with the same *place; or 12 if the recording is accepted and room
 * is too short, with the normal form's length in *place. *written is 0, and every byte of room is as it was.
 */
uint8_t cobbrundle_normalise(const uint8_t *bytes, size_t length, uint8_t *room, size_t room_length, size_t *place,
                             size_t *written);

#ifdef __cplusplus
}
#endif

#endif
