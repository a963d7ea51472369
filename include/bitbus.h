/*
 * The C surface of the BITBUS link: check word, frames on the line, NRZI, the two ends of a link, captures.
 * Link with libbitbus.a. Plain C99.
 *
 * In general
 *  - The result is document 01's number, 0 where nothing is refused (BITBUS_...; only bitbus_check_word gives the word
 *    itself). Each call lists its numbers below in the order in which it tests; it gives no other.
 *  - A refused call changes nothing: no byte of an end, of a lent output or of a values array.
 *  - A call that is not refused writes every entry of its values array. Of a lent output it writes what is said below
 *    and leaves all later bytes as they were.
 *  - Every function takes every input: nothing traps, and nothing is read or written outside what is lent. What is lent
 *    must be there: a pointer to as many bytes as its size says (any pointer where the size is 0), a pointer to an end
 *    or to a values array of the stated size. What a call may write (the end, the output, the values array) overlaps
 *    nothing else that it is lent.
 *  - No function keeps a pointer or any state of its own: calls on different ends may run at the same time.
 *  - A frame's meaning is its control byte. A control byte that is not in the table is refused by 9 where the call
 *    tests 9; no call gives one.
 *
 * Ends
 *    An end lives in bytes that its owner lends with each call, in the fixed layout below, the same for both ends where
 *    they hold the same; all numbers are little-endian. Every call that is handed an end tests 30 before all else: bytes
 *    that are no end (a mode or a mark outside its values), or an end that is not right: a count above 7, a message size
 *    neither 0 nor 5 to 253, a message against 12, an address or limit against 8 or 15, a sent mark without a message.
 *    An end made by the make call and changed by these calls alone is never refused by 30. Bytes may be moved and kept
 *    as they are; they hold no pointer.
 *
 *    offset  bytes
 *         0      1  mode: slave 0 NDM, 1 NRM; master 0 disconnecting, 1 connecting, 2 linked
 *         1      1  address
 *         2      1  Ns
 *         3      1  Nr
 *         4      1  whether the held message has been sent (0, 1)
 *         5      1  mark for messages in doubt (0, 1)
 *         6      8  size of the held message (0: none)
 *        14      8  size of the waiting message (0: none)
 *        22    253  held message; the bytes past its size stay as they were
 *       275    253  incoming slot: the waiting message; the bytes past its size stay as they were
 *                   here a slave ends
 *       528      1  master: peer-busy mark (0, 1)
 *       529      1  master: whether an order waits (0, 1)
 *       530      4  master: tick of the order
 *       534      4  master: answer limit in ticks
 */
#ifndef BITBUS_H
#define BITBUS_H

#include <stdbool.h>
#include <stddef.h>
#include <stdint.h>

#ifdef __cplusplus
extern "C" {
#endif

/* Sizes in bytes: of each end, of the buffer that an order or a slave step needs, of a buffer that holds every frame,
   of a text that holds every listing; the most bits that may be stated. */
enum {
    BITBUS_SLAVE_SIZE = 528,
    BITBUS_MASTER_SIZE = 538,
    BITBUS_MESSAGE_LEAST = 5,
    BITBUS_MESSAGE_MOST = 253,
    BITBUS_FRAME_MOST = 311,
    BITBUS_BITS_MOST = 8192,
    BITBUS_CAPTURE_MOST = 65536,
    BITBUS_LISTING_MOST = 283838
};

/* Offsets in an end. */
enum {
    BITBUS_AT_MODE = 0,
    BITBUS_AT_ADDRESS = 1,
    BITBUS_AT_NS = 2,
    BITBUS_AT_NR = 3,
    BITBUS_AT_SENT = 4,
    BITBUS_AT_DOUBT = 5,
    BITBUS_AT_HELD_SIZE = 6,
    BITBUS_AT_WAITING_SIZE = 14,
    BITBUS_AT_HELD = 22,
    BITBUS_AT_INCOMING = 275,
    BITBUS_AT_BUSY = 528,
    BITBUS_AT_ORDER_WAITS = 529,
    BITBUS_AT_TICK = 530,
    BITBUS_AT_LIMIT = 534
};

/* Modes. */
enum { BITBUS_NDM = 0, BITBUS_NRM = 1 };
enum { BITBUS_DISCONNECTING = 0, BITBUS_CONNECTING = 1, BITBUS_LINKED = 2 };

/* The numbers. */
enum {
    BITBUS_DONE = 0,
    BITBUS_NO_CONTENT = 1,
    BITBUS_BIT_COUNT = 2,
    BITBUS_FIVE_ONES_AT_END = 3,
    BITBUS_NOT_WHOLE_BYTES = 4,
    BITBUS_TOO_FEW_BYTES = 5,
    BITBUS_TOO_MANY_BYTES = 6,
    BITBUS_CHECK_WORD = 7,
    BITBUS_ADDRESS = 8,
    BITBUS_CONTROL = 9,
    BITBUS_INFORMATION = 10,
    BITBUS_OUTPUT = 11,
    BITBUS_LENGTH_BYTE = 12,
    BITBUS_STILL_HELD = 13,
    BITBUS_SLOT_EMPTY = 14,
    BITBUS_LIMIT = 15,
    BITBUS_NO_ORDER_WAITS = 16,
    BITBUS_ORDER_WAITS = 17,
    BITBUS_RECORD = 18,
    BITBUS_OTHER_ADDRESS = 19,
    BITBUS_END = 30
};

/* Control bytes. I: 16 + 2 * Ns + 32 * Nr; RR: 17 + 32 * Nr; RNR: 21 + 32 * Nr; the rest carry no count. */
enum {
    BITBUS_I = 0x10,
    BITBUS_RR = 0x11,
    BITBUS_RNR = 0x15,
    BITBUS_SNRM = 0x93,
    BITBUS_DISC = 0x53,
    BITBUS_UA = 0x73,
    BITBUS_FRMR = 0x97
};

/* What became of the link: a slave gains it in going to NRM, a master in going to linked; each loses it in leaving. */
enum { BITBUS_LINK_SAME = 0, BITBUS_LINK_GAINED = 1, BITBUS_LINK_LOST = 2 };

/* What stands at a place of a capture. */
enum { BITBUS_RECORD_END = 0, BITBUS_RECORD_ORDER = 1, BITBUS_RECORD_RESPONSE = 2, BITBUS_RECORD_SILENCE = 3 };

/* ---- The line ---- */

/* The check word over bytes (906E hex over the nine ASCII digits 123456789). It stands in a frame low byte first. */
uint16_t bitbus_check_word(const uint8_t *bytes, size_t size);

/* The message check, of size and length byte only.
   Numbers: 10 not 5 to 253 bytes; 12 the first byte is not the size plus 2. */
uint32_t bitbus_message_check(const uint8_t *message, size_t size);

/* Writes a frame as line bits, both flags included, first bit in bit 0 of byte 0; unused bits of the last byte written
   are ones.
   Numbers: 8 address outside 1 to 250; 9 control byte; 10 an I frame whose information is not 5 to 253 bytes, or
   another frame with information; 12 the first information byte is not the size plus 2; 11 the bytes needed exceed
   room (311 always suffice).
   values: [0] line bits, [1] inserted zeros. */
uint32_t bitbus_write(uint8_t address, uint8_t control, const uint8_t *information, size_t size,
                      uint8_t *out, size_t room, size_t values[2]);

/* Reads the first frame out of the first `bits` bits of a buffer, and writes its information to out.
   Numbers: 2 more than 8,192 bits or than the buffer has; 1 no non-empty content between two flags; 3 five ones at its
   very end without an inserted zero; 4 not whole bytes; 5 fewer than 4 bytes; 6 more than 257; 7 check word wrong;
   8, 9, 10, 12 as for writing; 11 room is less than the information's size.
   values: [0] address, [1] control byte, [2] information size. */
uint32_t bitbus_read(const uint8_t *buffer, size_t size, size_t bits,
                     uint8_t *out, size_t room, size_t values[3]);

/* NRZI from bits to levels, and back: a zero changes the level, a one keeps it, from the given starting level. As many
   bits out as in; the other bits of out stay, those of the last byte too.
   Numbers: 2 more than 8,192 bits or than the input has; 11 room is too small.
   values: [0] the level at the end (0, 1), from which a next part goes on. */
uint32_t bitbus_nrzi_encode(bool level, const uint8_t *input, size_t size, size_t bits,
                            uint8_t *out, size_t room, size_t values[1]);
uint32_t bitbus_nrzi_decode(bool level, const uint8_t *input, size_t size, size_t bits,
                            uint8_t *out, size_t room, size_t values[1]);

/* ---- The slave's end ---- */

/* Makes a fresh slave: in NDM, counts zero, slots empty (their bytes zero), no mark. The bytes lent may hold anything.
   Numbers: 8 address outside 1 to 250. */
uint32_t bitbus_slave_make(uint8_t end[BITBUS_SLAVE_SIZE], uint8_t address);

/* Makes the message the held one, unsent.
   Numbers: 30; 10, 12 as for the message check; 13 a message is still held. */
uint32_t bitbus_slave_put(uint8_t end[BITBUS_SLAVE_SIZE], const uint8_t *message, size_t size);

/* Writes the waiting message to out and empties the incoming slot.
   Numbers: 30; 14 the incoming slot is empty; 11 room is less than the message's size.
   values: [0] the message's size. */
uint32_t bitbus_slave_take(uint8_t end[BITBUS_SLAVE_SIZE], uint8_t *out, size_t room, size_t values[1]);

/* Answers an order: address, control byte and information as they were read. The response's information, if it is an I
   frame, is written to out.
   Numbers: 30; 11 room is less than 253; 9, 10, 12 as for writing; 19 the order is for another address. After 9, 10, 12
   or 19 no response is sent.
   values, of the response: [0] address, [1] control byte, [2] information size (0 but for I); of what the order
   brought: [3] size of the held message that it confirmed, [4] size of the message that it handed over (0: none),
   [5] what became of the link (BITBUS_LINK_...). */
uint32_t bitbus_slave_step(uint8_t end[BITBUS_SLAVE_SIZE], uint8_t address, uint8_t control,
                           const uint8_t *information, size_t size,
                           uint8_t *out, size_t room, size_t values[6]);

/* Makes the slave fresh but for both slots, whether the held message has been sent, the doubt mark and the address.
   Numbers: 30. */
uint32_t bitbus_slave_restart(uint8_t end[BITBUS_SLAVE_SIZE]);

/* Clears the mark for messages in doubt. Numbers: 30. */
uint32_t bitbus_slave_clear(uint8_t end[BITBUS_SLAVE_SIZE]);

/* ---- The master's end ---- */

/* Makes a fresh master: disconnecting, counts zero, slots empty (their bytes zero), no mark, no order waiting. The bytes
   lent may hold anything.
   Numbers: 8 address outside 1 to 250; 15 answer limit outside 1 to 65,535 ticks. */
uint32_t bitbus_master_make(uint8_t end[BITBUS_MASTER_SIZE], uint8_t address, uint32_t limit);

/* As for the slave. Numbers: 30, 10, 12, 13. */
uint32_t bitbus_master_put(uint8_t end[BITBUS_MASTER_SIZE], const uint8_t *message, size_t size);

/* As for the slave. Numbers: 30, 14, 11. values: [0] the message's size. */
uint32_t bitbus_master_take(uint8_t end[BITBUS_MASTER_SIZE], uint8_t *out, size_t room, size_t values[1]);

/* Gives the next order and starts the wait for its response; tick is the time now. The order's information, if it is an
   I frame, is written to out.
   Numbers: 30; 17 an order waits; 11 room is less than 253.
   values, of the order: [0] address, [1] control byte, [2] information size (0 but for I). */
uint32_t bitbus_master_order(uint8_t end[BITBUS_MASTER_SIZE], uint32_t tick,
                             uint8_t *out, size_t room, size_t values[3]);

/* Takes a response: address, control byte and information as they were read; tick is the time now. It ends the wait. An
   age (tick now less the order's tick, modulo 2 to the 32nd) at or above the limit, or another address, counts as
   silence.
   Numbers: 30; 16 no order waits; 9, 10, 12 as for writing: after these the order still waits.
   values: [0] 1 where it counts as silence, else 0; [1] size of the held message that it confirmed, [2] size of the
   message that it handed over (0: none), [3] what became of the link (BITBUS_LINK_...). */
uint32_t bitbus_master_response(uint8_t end[BITBUS_MASTER_SIZE], uint32_t tick, uint8_t address, uint8_t control,
                                const uint8_t *information, size_t size, size_t values[4]);

/* No response came: ends the wait and changes nothing else. Numbers: 30; 16 no order waits. */
uint32_t bitbus_master_silence(uint8_t end[BITBUS_MASTER_SIZE]);

/* Makes the master fresh but for both slots, whether the held message has been sent, the doubt mark, the address and the
   limit. Numbers: 30. */
uint32_t bitbus_master_restart(uint8_t end[BITBUS_MASTER_SIZE]);

/* Clears the mark for messages in doubt. Numbers: 30. */
uint32_t bitbus_master_clear(uint8_t end[BITBUS_MASTER_SIZE]);

/* ---- Captures ---- */

/* What stands at a place of a capture; at its end and past it, BITBUS_RECORD_END. Begin at 0 and go on at values[4],
   until values[0] is BITBUS_RECORD_END or a record is refused.
   Numbers: 18 length under 4 or past the end, another kind, a body of the wrong size, 1 to 3 bytes left; 8, 9, 10, 12 of
   the body, as for writing.
   values: [0] BITBUS_RECORD_..., [1] address, [2] control byte, [3] information size, [4] the place where the next
   record begins. A silence has 0 in [1] to [3], the end in [1] to [4]. */
uint32_t bitbus_record(const uint8_t *capture, size_t size, size_t at, size_t values[5]);

/* Writes the listing of a capture, the text that the program `list` prints.
   Numbers: 11 room is less than the text's size (283,838 bytes suffice for every capture).
   values: [0] the text's size. */
uint32_t bitbus_list(const uint8_t *capture, size_t size, uint8_t *out, size_t room, size_t values[1]);

#ifdef __cplusplus
}
#endif

#endif
