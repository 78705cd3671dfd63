/* Pepperknoll: the packet layer of an air-ground data link (the Mode S subnetwork of ICAO Annex 10
 * Volume III), proved.
 *
 * Link with libpepperknoll.a. No call allocates, blocks, keeps anything between calls or reads a
 * clock; any call may be made from any thread as long as no other call works on the same memory.
 * Every call ends and accepts any arguments: what cannot be done is refused with a number.
 *
 * Answers. A call returns one number. Its low 8 bits are the refusal number, 0 for done (PK_NUMBER
 * below); the bits above hold the values that the call's comment names, each with a macro that is
 * named after the call. After a refusal they are 0. The four calls on sequence numbers and the two
 * that give the position of a fault are never refused: their answer is the value itself. Every
 * macro evaluates its argument once.
 *
 * Order. "Refused with 14, 1" means that 14 is checked before 1.
 *
 * Lent memory. A list is lent as a pointer and a length. The pointer must be good for that many
 * elements, and two lists of one call must not overlap where the call writes to one of them. No
 * pointer may be NULL or misaligned, even if its length is 0 (the pointer is then not used); the
 * calls for which a length of 0 makes sense repeat this. A refused call writes nothing.
 *
 * States. A state is a fixed number of bytes that the caller keeps, and may copy, store and send.
 * Its layout is given below: words are stored with the lowest byte first, at any alignment. Bytes
 * of another length, bytes that are not such a state, and a state that is not in good order are
 * refused with PK_NOT_IN_ORDER (14); nothing else is. A call that makes a state, `.._fresh` or
 * `pk_table_empty`, looks at the length alone.
 *
 * Results. A list for results (tickets, a packet that is read, the report of an update) has the
 * number of places that its constant gives, or more: fewer are refused with PK_OUTPUT_TOO_SHORT
 * (5), and places beyond that number keep what they held.
 */
#ifndef PEPPERKNOLL_H
#define PEPPERKNOLL_H

#include <stddef.h>
#include <stdint.h>

#ifdef __cplusplus
extern "C" {
#endif

/* ---- refusals */

#define PK_DONE 0
#define PK_OUT_OF_RANGE 1          /* an argument exceeds its field; a packet to write is not 10
                                      bytes, or not one of a known kind */
#define PK_MALFORMED 2             /* frame empty or not of whole segments; lengths don't sum;
                                      no frames; M = 1 on the last frame */
#define PK_FORMAT_ERROR 3          /* fixed field, fill, LV or padding byte wrong; M = 0 before the
                                      last frame */
#define PK_MESSAGE_TOO_LONG 4      /* message over 4,096 bytes */
#define PK_OUTPUT_TOO_SHORT 5      /* lent output shorter than needed */
#define PK_ROUTE_LIST_MALFORMED 6  /* route list over 255 bytes, or its last entry is cut */
#define PK_NO_CLOCK 7              /* no clock runs for that number */
#define PK_NO_INTERROGATOR 8       /* ground address has no interrogator */
#define PK_WINDOW_CLOSED 9         /* send window closed, or held off by RNR */
#define PK_OUTSIDE_WINDOW 10       /* received PS outside the window */
#define PK_OUT_OF_SEQUENCE 11      /* received PS out of sequence */
#define PK_FIRST_NOT_ZERO 12       /* received PS not 0, and none accepted yet */
#define PK_PACKET_TOO_LONG 13      /* packet over the form's largest size */
#define PK_NOT_IN_ORDER 14         /* the state is not in good order */
#define PK_ALL_FAILED 15           /* every interrogator of that address has failed */
#define PK_NEVER_SENT 16           /* PR acknowledges what was never sent */
#define PK_RUN_BROKEN 17           /* SN, PS or CH breaks the run while joining */
#define PK_SHORT_FORM 23           /* writing or cutting in the short uplink form */

/* The refusal number of any answer. */
#define PK_NUMBER(answer) ((uint8_t)((answer) & 0xFF))

/* ---- sequence numbers. SN counts modulo 64; PS and PR count modulo 16. A number that does not fit
 * its field is taken as its remainder. */

uint8_t pk_link_distance(uint8_t from, uint8_t to);   /* distance from `from` to `to`, modulo 64 */
uint8_t pk_link_next(uint8_t number);                 /* the number after, modulo 64 */
uint8_t pk_packet_distance(uint8_t from, uint8_t to); /* the same, modulo 16 */
uint8_t pk_packet_next(uint8_t number);

/* ---- the flow window, sending end. State: [0] lower edge, [1] next PS, [2] 1 while an RNR holds
 * the end off, else 0. */

#define PK_SENDER_BYTES 3

/* Writes a fresh state: nothing sent, not held off. Refused with 14 (a wrong length). */
uint32_t pk_sender_fresh(uint8_t *state, size_t state_len);
/* 0 if the bytes are a state in good order, else 14. */
uint32_t pk_sender_in_order(const uint8_t *state, size_t state_len);
/* Asks for the PS of the next packet to send: bits 8 to 15. Refused with 14, 9 (the window is
 * closed, or the end is held off). */
uint32_t pk_sender_send(uint8_t *state, size_t state_len);
#define PK_SEND_PS(answer) ((uint8_t)((answer) >> 8 & 0xFF))
/* Takes the PR of a received packet: of DATA, which leaves the mark; of an RR, which lifts it; of
 * an RNR, which sets it; of a REJECT, which lifts it and leaves the next PS as it is. Refused with
 * 14, 1, 16; a refused one changes nothing. */
uint32_t pk_sender_acknowledge(uint8_t *state, size_t state_len, uint8_t pr);
uint32_t pk_sender_ready(uint8_t *state, size_t state_len, uint8_t pr);
uint32_t pk_sender_not_ready(uint8_t *state, size_t state_len, uint8_t pr);
uint32_t pk_sender_reject(uint8_t *state, size_t state_len, uint8_t pr);

/* ---- the flow window, receiving end. State: [0] expected PS, [1] 1 until a packet is accepted,
 * then 0, [2] count of packets not yet told. Three zero bytes are in good order but not fresh. */

#define PK_RECEIVER_BYTES 3

/* Writes a fresh state: nothing accepted. Refused with 14 (a wrong length). */
uint32_t pk_receiver_fresh(uint8_t *state, size_t state_len);
/* 0 if the bytes are a state in good order, else 14. */
uint32_t pk_receiver_in_order(const uint8_t *state, size_t state_len);
/* Takes the PS of a received packet. Bit 8 says that PR is due. Refused with 14, 1, then 12, 10 or
 * 11. */
uint32_t pk_receiver_receive(uint8_t *state, size_t state_len, uint8_t ps);
#define PK_RECEIVE_DUE(answer) ((uint8_t)((answer) >> 8 & 1))
/* The PR to send now, bits 8 to 15; the count of packets not yet told becomes 0. Refused with
 * 14. */
uint32_t pk_receiver_tell(uint8_t *state, size_t state_len);
#define PK_TELL_PR(answer) ((uint8_t)((answer) >> 8 & 0xFF))

/* ---- the resequencer. State: [0] NESN, [1] HSNR, [2..9] the held numbers as a word of 64 bits,
 * [10..17] the numbers whose clock runs, the same, [18..145] the 64 tickets, two bytes each. */

#define PK_RESEQUENCER_BYTES 146
#define PK_TICKETS 32

#define PK_HELD 0
#define PK_HANDED_ON 1
#define PK_OLD 2
#define PK_DUPLICATE 3

/* Of pk_resequencer_arrive and pk_resequencer_clock_end: the outcome, and the number of tickets
 * handed on. */
#define PK_RESEQUENCER_OUTCOME(answer) ((uint8_t)((answer) >> 8 & 0xFF))
#define PK_RESEQUENCER_COUNT(answer) ((uint8_t)((answer) >> 16 & 0xFF))

/* Writes a fresh state: NESN 0, nothing held. Refused with 14 (a wrong length). */
uint32_t pk_resequencer_fresh(uint8_t *state, size_t state_len);
/* 0 if the bytes are a state in good order, else 14. */
uint32_t pk_resequencer_in_order(const uint8_t *state, size_t state_len);
/* A packet arrives. Writes the released tickets to the first 32 places of `tickets`, in order, and
 * 0 to the others of these 32. Bits 8 to 15 are the outcome, bits 16 to 23 the number of tickets.
 * Refused with 14, 1, 5 (`tickets` has fewer than 32 places). */
uint32_t pk_resequencer_arrive(uint8_t *state, size_t state_len, uint16_t *tickets,
                               size_t tickets_len, uint8_t sn, uint16_t ticket);
/* The clock of a number ends. Writes and answers as an arrival does. Refused with 14, 1, 5, 7. */
uint32_t pk_resequencer_clock_end(uint8_t *state, size_t state_len, uint16_t *tickets,
                                  size_t tickets_len, uint8_t sn);

/* ---- frames. A form is one number: 0 short uplink, 1 to 16 long downlink with that many segments,
 * 17 long uplink. Every call refuses any other number with 1. The short uplink form is read and
 * joined; writing and cutting refuse it with 23. */

#define PK_SHORT_UPLINK 0
#define PK_LONG_UPLINK 17
#define PK_NO_FORM 255

/* The form with that many segments, or PK_NO_FORM if they are not 1 to 16. */
static inline uint8_t pk_long_downlink(unsigned segments)
{
    return segments - 1 < 16 ? (uint8_t)segments : (uint8_t)PK_NO_FORM;
}

/* A packet: [0] its kind, then a byte for each of its fields, in the frame's order. The other bytes
 * are 0 when a packet is read, and must be 0 when it is written.
 *   DATA                    [1] M  [2] SN [3] PS [4] PR [5] CH
 *   CLEAR REQUEST           [1] TC [2] SN [3] CH [4] AM [5] AG [6] CC [7] DC [8] S [9] F
 *   CLEAR CONFIRMATION      [1] TC [2] SN [3] CH [4] AM [5] AG
 *   CALL REQUEST            [1] P  [2] SN [3] TC [4] CH [5] AM [6] AG [7] S [8] FS [9] F
 *   CALL ACCEPT             [1] TC [2] SN [3] CH [4] AM [5] AG [6] S [7] F
 *   RR, RNR, REJECT         [1] SN [2] CH [3] PR
 *   INTERRUPT               [1] S  [2] F  [3] SN [4] CH
 *   INTERRUPT CONFIRMATION  [1] SN [2] CH
 *   RESET                   [1] SN [2] CH [3] RC [4] DC
 *   RESET CONFIRMATION      [1] SN [2] CH
 *   ROUTE                   [1] OF [2] IN [3] RTL
 * The form says the direction of a CALL packet: uplink frames have no place for CH of a CALL
 * REQUEST and TC of a CALL ACCEPT, downlink frames have none for TC of a CALL REQUEST. What has no
 * place is 0 too. DATA, CLEAR REQUEST, CALL REQUEST, CALL ACCEPT and INTERRUPT have user data. */

#define PK_PACKET_BYTES 10

#define PK_DATA 0
#define PK_CLEAR_REQUEST 1
#define PK_CLEAR_CONFIRMATION 2
#define PK_CALL_REQUEST 3
#define PK_CALL_ACCEPT 4
#define PK_RR 5
#define PK_RNR 6
#define PK_REJECT 7
#define PK_INTERRUPT 8
#define PK_INTERRUPT_CONFIRMATION 9
#define PK_RESET 10
#define PK_RESET_CONFIRMATION 11
#define PK_ROUTE 12

/* Writes a packet and its user data as one frame to the front of `out`; bytes beyond the frame
 * keep what they held. Bits 8 and up are the frame's length. Refused with 1 (also if `packet` has
 * not 10 bytes, and for an unknown kind, for ROUTE, a flag over 1, a byte other than 0 that the
 * kind has no use for, and user data with a kind that has none), 23, 13, 5. `user` and `out` are
 * not NULL, even with length 0. */
uint64_t pk_frame_write(uint8_t form, const uint8_t *packet, size_t packet_len, const uint8_t *user,
                        size_t user_len, uint8_t *out, size_t out_len);
#define PK_WRITE_BYTES(answer) ((size_t)((answer) >> 8))

/* Writes a ROUTE packet with this table and, if `of` is 1, this optional data, which may be empty,
 * and answers as pk_frame_write does. The table is not looked into. Refused with 1 (the form, `in`
 * or `of` over 1, or data although `of` is 0), 23, 13, 5. No list is NULL, even with length 0. */
uint64_t pk_route_write(uint8_t form, uint8_t in, uint8_t of, const uint8_t *table,
                        size_t table_len, const uint8_t *data, size_t data_len, uint8_t *out,
                        size_t out_len);

/* Reads a frame into the first 10 bytes of `packet`. Bits 8 to 15 are the header's length, the
 * index in the frame where its user data starts; bits 16 and up are the length of the user data.
 * Of a ROUTE they are 2 and the number of bytes of what follows RTL: the table, RTL bytes of it,
 * and if OF is 1 a byte with the length of the optional data and the data. Refused with 1, 2, 3,
 * 13, 5 (`packet` has fewer than 10 bytes). `frame` is not NULL, even with length 0. */
uint64_t pk_frame_read(uint8_t form, const uint8_t *frame, size_t frame_len, uint8_t *packet,
                       size_t packet_len);
#define PK_READ_USER_START(answer) ((size_t)((answer) >> 8 & 0xFF))
#define PK_READ_USER_BYTES(answer) ((size_t)((answer) >> 16))

/* Where a frame is bad: the byte position, from 0, of what pk_frame_read refuses the same frame
 * for. The answer is the position itself, and nothing is written. Beside refusal
 *    2  the frame's length
 *    3  the first byte in frame order that holds a wrong fixed field, fill, LV, length of a ROUTE
 *       or padding, or lies past the segments of a packet without LV. It is 0 for the first bits of
 *       no known packet; the header's last byte for a wrong LV (2 in DATA and INTERRUPT, 4 in the
 *       CALL packets, 6 in CLEAR REQUEST), which leaves open where padding would begin; 1 for the
 *       length of a ROUTE's table, and the byte after the table for that of its optional data
 *   13  the form's largest size: 28, 10 times the segments of a long downlink, 152
 * It is 0 beside 1, and if the frame reads; that includes a 5 of pk_frame_read, which is not known
 * here. `frame` is not NULL, even with length 0. */
size_t pk_frame_fault(uint8_t form, const uint8_t *frame, size_t frame_len);

/* ---- messages of 0 to 4,096 bytes */

/* Cuts a message into DATA frames, written one after the other to `out`, their lengths to
 * `lengths`; places beyond keep what they held. SN and PS count up from those given, PR and CH are
 * the same on all. Bits 8 to 31 are the number of frames, bits 32 and up their bytes in all.
 * Refused with 1, 23, 4, 5. No list is NULL, even with length 0. */
uint64_t pk_message_cut(uint8_t form, uint8_t sn, uint8_t ps, uint8_t pr, uint8_t ch,
                        const uint8_t *message, size_t message_len, uint8_t *out, size_t out_len,
                        size_t *lengths, size_t lengths_len);
#define PK_CUT_FRAMES(answer) ((size_t)((answer) >> 8 & 0xFFFFFF))
#define PK_CUT_BYTES(answer) ((size_t)((answer) >> 32))

/* Joins the DATA frames that `frames` holds one after the other, of these lengths, to the message
 * that they carry. Bits 8 and up are its length. Refused with 1, 2, then frame by frame 2, 3, 13,
 * 3, 17, 2, then 4, 5. No list is NULL, even with length 0. */
uint64_t pk_message_join(uint8_t form, const size_t *lengths, size_t lengths_len,
                         const uint8_t *frames, size_t frames_len, uint8_t *out, size_t out_len);
#define PK_JOIN_BYTES(answer) ((size_t)((answer) >> 8))

/* Where frames are bad: the byte position, from 0 and within all of `frames`, of what
 * pk_message_join refuses the same arguments for, with an output of `out_len` bytes; the output
 * itself is not lent. The answer is the position itself, and nothing is written. For
 *   a frame that does not read (2, 3, 13): the position that pk_frame_fault has for it, counted
 *     from where the frame starts; so 2 gives the frame's end
 *   a frame that is not DATA or has a wrong M (3 or 2), or that breaks the run (17): the frame's
 *     first byte
 *   lengths that don't sum to the data, no frames (2), 4, 5: the length of all the data
 * It is 0 beside 1, and if the frames are joined. No list is NULL, even with length 0. */
size_t pk_message_fault(uint8_t form, const size_t *lengths, size_t lengths_len,
                        const uint8_t *frames, size_t frames_len, size_t out_len);

/* ---- interrogators. Table: for each of the 256 ground addresses two bytes, the set of its codes
 * II as a word of 16 bits. */

#define PK_TABLE_BYTES 512
#define PK_LOST 256
#define PK_NO_CODE 0xFFFF /* for `last`: no code was used before */

/* The clearing cause CC and the diagnostic code DC with which a call is cleared if its ground
 * address has no interrogator (refusal 8). */
#define PK_NO_INTERROGATOR_CAUSE 141
#define PK_NO_INTERROGATOR_DIAGNOSTIC 162

/* Writes a table in which no address has a code. Refused with 14 (a wrong length). */
uint32_t pk_table_empty(uint8_t *table, size_t table_len);
/* The set of an address's codes, bits 8 to 23. Refused with 14. */
uint32_t pk_table_codes(const uint8_t *table, size_t table_len, uint8_t address);
#define PK_CODES_SET(answer) ((uint16_t)((answer) >> 8 & 0xFFFF))
/* How many interrogators an address has, bits 8 to 15. Refused with 14. */
uint32_t pk_table_count(const uint8_t *table, size_t table_len, uint8_t address);
#define PK_COUNT_CODES(answer) ((uint8_t)((answer) >> 8 & 0xFF))
/* Chooses an interrogator for an address among its codes that have not failed: the last-used one if
 * it is among them, else the lowest. Bits 8 to 15. Refused with 14, 1 (a last-used code over 15
 * other than PK_NO_CODE), 8, 15. */
uint32_t pk_table_choose(const uint8_t *table, size_t table_len, uint8_t address, uint16_t last,
                         uint16_t failed);
/* Of pk_table_choose and pk_choose. */
#define PK_CHOOSE_CODE(answer) ((uint8_t)((answer) >> 8 & 0xFF))

/* Changes a table by a route list. Writes to the first 256 places of `lost` the addresses that had
 * a code before and have none after, rising, and 0 to the others of these 256; bits 8 and up are
 * their count. Refused with 14, 5 (`lost` has fewer than 256 places), 6. `list` is not NULL, even
 * with length 0. */
uint32_t pk_table_update(uint8_t *table, size_t table_len, const uint8_t *list, size_t list_len,
                         uint8_t *lost, size_t lost_len);
#define PK_UPDATE_LOST(answer) ((size_t)((answer) >> 8))

/* The choice from a set of codes, answered as pk_table_choose does. Refused with 1, 8, 15. */
uint32_t pk_choose(uint16_t codes, uint16_t last, uint16_t failed);

#ifdef __cplusplus
}
#endif

#endif
