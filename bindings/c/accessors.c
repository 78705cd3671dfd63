/* Checks every macro of pepperknoll.h, and pk_long_downlink, on answers of the library: that it
 * gives the right value, that it gives 0 after a refusal, and that it evaluates its argument once.
 * Checks the two calls that give a position on worked examples as well, each beside the refusal.
 * Prints one line; ends with 1 at the first difference. */
#include <limits.h>
#include <stdio.h>
#include <stdlib.h>
#include <string.h>

#include "pepperknoll.h"

static unsigned checked, evaluated;

static void check(const char *what, uint64_t got, uint64_t wanted)
{
    checked++;
    if (got == wanted)
        return;
    printf("bindings/c/accessors.c: %s is %llu and should be %llu\n", what,
           (unsigned long long)got, (unsigned long long)wanted);
    exit(1);
}

/* An answer, counted each time it is evaluated. */
static uint32_t once32(uint32_t answer)
{
    evaluated++;
    return answer;
}

static uint64_t once64(uint64_t answer)
{
    evaluated++;
    return answer;
}

#define IS(value, wanted) check(#value, value, wanted)

/* The argument is made of two, so that a macro without its brackets is noticed too. */
#define ONCE(macro, once, answer, wanted)                               \
    do {                                                                \
        evaluated = 0;                                                  \
        check(#macro "(" #answer ")", macro(once(answer) | 0), wanted); \
        check("how often " #macro " evaluates", evaluated, 1);          \
    } while (0)
#define OF32(macro, answer, wanted) ONCE(macro, once32, answer, wanted)
#define OF64(macro, answer, wanted) ONCE(macro, once64, answer, wanted)

static uint8_t sender[PK_SENDER_BYTES], receiver[PK_RECEIVER_BYTES];
static uint8_t link_state[PK_RESEQUENCER_BYTES], table[PK_TABLE_BYTES];
static uint8_t packet[PK_PACKET_BYTES], lost[PK_LOST], frames[400], message[4097];
static uint16_t tickets[PK_TICKETS];
static size_t lengths[4];

/* One byte or place less than a constant says. */
#define LESS(constant) ((constant) - 1)

static void window(void)
{
    uint32_t answer;

    OF32(PK_NUMBER, pk_sender_fresh(sender, LESS(PK_SENDER_BYTES)), PK_NOT_IN_ORDER);
    OF32(PK_NUMBER, pk_sender_fresh(sender, PK_SENDER_BYTES), PK_DONE);
    IS(pk_sender_in_order(sender, PK_SENDER_BYTES), PK_DONE);
    sender[0] = 9;
    sender[1] = 7;
    answer = pk_sender_send(sender, PK_SENDER_BYTES);
    OF32(PK_SEND_PS, answer, 7);
    OF32(PK_NUMBER, answer, PK_DONE);
    answer = pk_sender_send(sender, PK_SENDER_BYTES);
    OF32(PK_NUMBER, answer, PK_WINDOW_CLOSED);
    OF32(PK_SEND_PS, answer, 0);
    OF32(PK_NUMBER, pk_sender_acknowledge(sender, PK_SENDER_BYTES, 16), PK_OUT_OF_RANGE);
    sender[1] = 10;
    OF32(PK_NUMBER, pk_sender_acknowledge(sender, PK_SENDER_BYTES, 11), PK_NEVER_SENT);
    sender[1] = 16;
    IS(pk_sender_in_order(sender, PK_SENDER_BYTES), PK_NOT_IN_ORDER);
}

static void sender_is(uint8_t edge, uint8_t next, uint8_t mark)
{
    IS(sender[0], edge);
    IS(sender[1], next);
    IS(sender[2], mark);
}

/* Edge 3, next 6: an RNR holds the end off, and only an RR or a REJECT that is not refused lifts
 * that. */
static void hold(void)
{
    OF32(PK_NUMBER, pk_sender_fresh(sender, PK_SENDER_BYTES), PK_DONE);
    sender_is(0, 0, 0);
    sender[0] = 3;
    sender[1] = 6;
    OF32(PK_NUMBER, pk_sender_not_ready(sender, PK_SENDER_BYTES, 7), PK_NEVER_SENT);
    sender_is(3, 6, 0);
    OF32(PK_NUMBER, pk_sender_not_ready(sender, PK_SENDER_BYTES, 3), PK_DONE);
    sender_is(3, 6, 1);
    OF32(PK_NUMBER, pk_sender_send(sender, PK_SENDER_BYTES), PK_WINDOW_CLOSED);
    OF32(PK_NUMBER, pk_sender_ready(sender, PK_SENDER_BYTES, 7), PK_NEVER_SENT);
    OF32(PK_NUMBER, pk_sender_acknowledge(sender, PK_SENDER_BYTES, 5), PK_DONE);
    sender_is(5, 6, 1);
    OF32(PK_NUMBER, pk_sender_reject(sender, PK_SENDER_BYTES, 5), PK_DONE);
    sender_is(5, 6, 0);
    OF32(PK_NUMBER, pk_sender_not_ready(sender, PK_SENDER_BYTES, 6), PK_DONE);
    OF32(PK_NUMBER, pk_sender_ready(sender, PK_SENDER_BYTES, 6), PK_DONE);
    OF32(PK_SEND_PS, pk_sender_send(sender, PK_SENDER_BYTES), 6);
    sender[2] = 2;
    IS(pk_sender_in_order(sender, PK_SENDER_BYTES), PK_NOT_IN_ORDER);
    OF32(PK_NUMBER, pk_sender_ready(sender, PK_SENDER_BYTES, 99), PK_NOT_IN_ORDER);
}

static void receiving(void)
{
    uint32_t answer = pk_receiver_fresh(receiver, LESS(PK_RECEIVER_BYTES));
    uint8_t ps;

    OF32(PK_NUMBER, answer, PK_NOT_IN_ORDER);
    OF32(PK_NUMBER, pk_receiver_fresh(receiver, PK_RECEIVER_BYTES), PK_DONE);
    IS(pk_receiver_in_order(receiver, PK_RECEIVER_BYTES), PK_DONE);
    answer = pk_receiver_receive(receiver, PK_RECEIVER_BYTES, 1);
    OF32(PK_NUMBER, answer, PK_FIRST_NOT_ZERO);
    for (ps = 0; ps < 7; ps++)
        OF32(PK_RECEIVE_DUE, pk_receiver_receive(receiver, PK_RECEIVER_BYTES, ps), 0);
    answer = pk_receiver_receive(receiver, PK_RECEIVER_BYTES, 7);
    OF32(PK_RECEIVE_DUE, answer, 1);
    answer = pk_receiver_receive(receiver, PK_RECEIVER_BYTES, 7);
    OF32(PK_NUMBER, answer, PK_OUTSIDE_WINDOW);
    OF32(PK_RECEIVE_DUE, answer, 0);
    answer = pk_receiver_receive(receiver, PK_RECEIVER_BYTES, 9);
    OF32(PK_NUMBER, answer, PK_OUT_OF_SEQUENCE);
    OF32(PK_TELL_PR, pk_receiver_tell(receiver, PK_RECEIVER_BYTES), 8);
    receiver[1] = 2;
    answer = pk_receiver_tell(receiver, PK_RECEIVER_BYTES);
    OF32(PK_NUMBER, answer, PK_NOT_IN_ORDER);
    OF32(PK_TELL_PR, answer, 0);
}

static uint32_t arrive(size_t places, uint8_t sn)
{
    return pk_resequencer_arrive(link_state, PK_RESEQUENCER_BYTES, tickets, places, sn, 700);
}

static uint32_t clock_end(size_t places, uint8_t sn)
{
    return pk_resequencer_clock_end(link_state, PK_RESEQUENCER_BYTES, tickets, places, sn);
}

static void event(uint32_t answer, uint8_t outcome, uint8_t count)
{
    OF32(PK_NUMBER, answer, PK_DONE);
    OF32(PK_RESEQUENCER_OUTCOME, answer, outcome);
    OF32(PK_RESEQUENCER_COUNT, answer, count);
}

static void refused(uint32_t answer, uint8_t number)
{
    OF32(PK_NUMBER, answer, number);
    OF32(PK_RESEQUENCER_OUTCOME, answer, 0);
    OF32(PK_RESEQUENCER_COUNT, answer, 0);
}

static void resequencer(void)
{
    uint32_t answer = pk_resequencer_fresh(link_state, LESS(PK_RESEQUENCER_BYTES));

    OF32(PK_NUMBER, answer, PK_NOT_IN_ORDER);
    OF32(PK_NUMBER, pk_resequencer_fresh(link_state, PK_RESEQUENCER_BYTES), PK_DONE);
    IS(pk_resequencer_in_order(link_state, PK_RESEQUENCER_BYTES), PK_DONE);
    event(arrive(PK_TICKETS, 2), PK_HELD, 0);
    event(arrive(PK_TICKETS, 2), PK_DUPLICATE, 0);
    event(arrive(PK_TICKETS, 40), PK_OLD, 0);
    event(arrive(PK_TICKETS, 1), PK_HELD, 0);
    refused(clock_end(LESS(PK_TICKETS), 9), PK_OUTPUT_TOO_SHORT);
    refused(clock_end(PK_TICKETS, 9), PK_NO_CLOCK);
    refused(arrive(LESS(PK_TICKETS), 0), PK_OUTPUT_TOO_SHORT);
    refused(arrive(PK_TICKETS, 64), PK_OUT_OF_RANGE);
    event(arrive(PK_TICKETS, 0), PK_HANDED_ON, 3);
    event(arrive(PK_TICKETS, 6), PK_HELD, 0);
    event(clock_end(PK_TICKETS, 6), PK_HANDED_ON, 1);
    link_state[0] = 64;
    refused(arrive(PK_TICKETS, 0), PK_NOT_IN_ORDER);
}

static uint64_t write_frame(uint8_t form, size_t user)
{
    return pk_frame_write(form, packet, PK_PACKET_BYTES, message, user, frames, sizeof frames);
}

/* A form by its largest packet: one of that size is written, one more byte is too long. */
static void largest(uint8_t form, size_t size, size_t frame)
{
    memset(packet, 0, sizeof packet);
    packet[0] = PK_DATA;
    OF64(PK_WRITE_BYTES, write_frame(form, size - 3), frame);
    OF64(PK_NUMBER, write_frame(form, size - 2), PK_PACKET_TOO_LONG);
    OF64(PK_WRITE_BYTES, write_frame(form, size - 2), 0);
}

static void forms(void)
{
    static const unsigned none[] = { 0, 17, 18, 255, 256, 257, 65537, UINT_MAX - 1, UINT_MAX };
    unsigned segments;
    size_t i;

    memset(packet, 0, sizeof packet);
    packet[0] = PK_DATA;
    OF64(PK_NUMBER, write_frame(PK_SHORT_UPLINK, 0), PK_SHORT_FORM);
    OF64(PK_WRITE_BYTES, write_frame(PK_SHORT_UPLINK, 0), 0);
    packet[2] = 64;
    OF64(PK_NUMBER, write_frame(PK_SHORT_UPLINK, 0), PK_OUT_OF_RANGE);
    largest(PK_LONG_UPLINK, 152, 160);
    for (segments = 1; segments <= 16; segments++) {
        IS(pk_long_downlink(segments), segments);
        largest(pk_long_downlink(segments), 10 * segments, 10 * segments);
    }
    for (i = 0; i < sizeof none / sizeof none[0]; i++) {
        IS(pk_long_downlink(none[i]), PK_NO_FORM);
        OF64(PK_NUMBER, write_frame(pk_long_downlink(none[i]), 0), PK_OUT_OF_RANGE);
    }
}

/* Reads what was just written, so many bytes, with so many of user data. */
static void read_back(size_t frame, uint8_t kind, size_t start, size_t user)
{
    uint64_t answer;

    memset(packet, 0xEE, sizeof packet);
    answer = pk_frame_read(PK_LONG_UPLINK, frames, frame, packet, LESS(PK_PACKET_BYTES));
    OF64(PK_NUMBER, answer, PK_OUTPUT_TOO_SHORT);
    OF64(PK_READ_USER_START, answer, 0);
    OF64(PK_READ_USER_BYTES, answer, 0);
    answer = pk_frame_read(PK_LONG_UPLINK, frames, frame, packet, PK_PACKET_BYTES);
    OF64(PK_NUMBER, answer, PK_DONE);
    OF64(PK_READ_USER_START, answer, start);
    OF64(PK_READ_USER_BYTES, answer, user);
    IS(packet[0], kind);
}

/* Each kind with its header's length, user data and the frame that holds both; and how the frame
 * begins if all fields are 0. */
static const struct {
    uint8_t kind, first;
    size_t start, user, frame;
} written[] = {
    { PK_DATA, 0x80, 3, 140, 150 },
    { PK_CLEAR_REQUEST, 0x58, 7, 20, 30 },
    { PK_CLEAR_CONFIRMATION, 0x5C, 4, 0, 10 },
    { PK_CALL_REQUEST, 0x50, 5, 20, 30 },
    { PK_CALL_ACCEPT, 0x54, 5, 5, 10 },
    { PK_RR, 0x60, 3, 0, 10 },
    { PK_RNR, 0x64, 3, 0, 10 },
    { PK_REJECT, 0x7D, 3, 0, 10 },
    { PK_INTERRUPT, 0x74, 3, 8, 20 },
    { PK_INTERRUPT_CONFIRMATION, 0x7C, 3, 0, 10 },
    { PK_RESET, 0x68, 5, 0, 10 },
    { PK_RESET_CONFIRMATION, 0x6C, 3, 0, 10 },
};

static void kinds(void)
{
    size_t i;

    for (i = 0; i < sizeof written / sizeof written[0]; i++) {
        memset(packet, 0, sizeof packet);
        packet[0] = written[i].kind;
        OF64(PK_WRITE_BYTES, write_frame(PK_LONG_UPLINK, written[i].user), written[i].frame);
        IS(frames[0], written[i].first);
        read_back(written[i].frame, written[i].kind, written[i].start, written[i].user);
    }
    packet[9] = 1; /* a RESET CONFIRMATION has no use for it */
    OF64(PK_NUMBER, write_frame(PK_LONG_UPLINK, 0), PK_OUT_OF_RANGE);
    memset(packet, 0, sizeof packet);
    packet[0] = PK_ROUTE; /* it is written by a call of its own */
    OF64(PK_NUMBER, write_frame(PK_LONG_UPLINK, 0), PK_OUT_OF_RANGE);
    OF64(PK_NUMBER, pk_frame_read(PK_LONG_UPLINK, frames, 9, packet, PK_PACKET_BYTES),
         PK_MALFORMED);
    frames[9] = 1;
    OF64(PK_NUMBER, pk_frame_read(PK_LONG_UPLINK, frames, 10, packet, PK_PACKET_BYTES),
         PK_FORMAT_ERROR);
}

/* The fields of a packet, one by one, and the frame that they make. */
static void fields(uint8_t form, const uint8_t *wanted, const uint8_t *front, size_t bytes)
{
    size_t i;

    memcpy(packet, wanted, sizeof packet);
    OF64(PK_WRITE_BYTES, write_frame(form, 0), 10);
    for (i = 0; i < 10; i++)
        IS(frames[i], i < bytes ? front[i] : 0);
    memset(packet, 0xEE, sizeof packet);
    OF64(PK_READ_USER_START, pk_frame_read(form, frames, 10, packet, PK_PACKET_BYTES), bytes);
    for (i = 0; i < sizeof packet; i++)
        IS(packet[i], wanted[i]);
}

/* SN 5, CH 3, PR 7, AM 2, AG 41 hex; the CALL packets on the uplink and on the downlink. */
static void layouts(void)
{
    static const uint8_t ready[10] = { PK_RR, 5, 3, 7 }, ready_front[] = { 0x60, 5, 0x37 };
    static const uint8_t reset[10] = { PK_RESET, 5, 3, 1, 2 };
    static const uint8_t reset_front[] = { 0x68, 5, 0x30, 1, 2 };
    static const uint8_t request_up[10] = { PK_CALL_REQUEST, 1, 5, 1, 0, 2, 0x41, 0, 0, 0 };
    static const uint8_t request_down[10] = { PK_CALL_REQUEST, 1, 5, 0, 3, 2, 0x41, 0, 0, 0 };
    static const uint8_t request_up_front[] = { 0x50, 0x85, 0x12, 0x41, 5 };
    static const uint8_t request_down_front[] = { 0x50, 0x85, 0x32, 0x41, 5 };
    static const uint8_t accept_down[10] = { PK_CALL_ACCEPT, 1, 5, 3, 2, 0x41, 0, 1, 0, 0 };
    static const uint8_t accept_down_front[] = { 0x54, 0x45, 0x32, 0x41, 0x15 };

    fields(PK_LONG_UPLINK, ready, ready_front, 3);
    fields(PK_LONG_UPLINK, reset, reset_front, 5);
    fields(PK_LONG_UPLINK, request_up, request_up_front, 5);
    fields(pk_long_downlink(1), request_down, request_down_front, 5);
    fields(pk_long_downlink(1), accept_down, accept_down_front, 5);
    memcpy(packet, request_down, sizeof packet);
    OF64(PK_NUMBER, write_frame(PK_LONG_UPLINK, 0), PK_OUT_OF_RANGE);
    memcpy(packet, accept_down, sizeof packet);
    OF64(PK_NUMBER, write_frame(PK_LONG_UPLINK, 0), PK_OUT_OF_RANGE);
    memcpy(packet, ready, sizeof packet);
    OF64(PK_NUMBER, write_frame(PK_LONG_UPLINK, 1), PK_OUT_OF_RANGE);
}

/* So many bytes of a table and of optional data, which is there if `of` is 1. */
static uint64_t write_route(uint8_t form, uint8_t of, size_t bytes, size_t data)
{
    return pk_route_write(form, 1, of, table, bytes, message, data, frames, sizeof frames);
}

/* A ROUTE with IN = 1: absent and empty data are two values. */
static void route_frames(void)
{
    static const uint8_t front[] = { 0x73, 3, 0x59, 0x12, 0x40, 2, 7, 8, 0, 0 };
    uint64_t answer;
    size_t i;

    memset(table, 0, sizeof table);
    memcpy(table, front + 2, 3);
    message[0] = 7;
    message[1] = 8;
    OF64(PK_WRITE_BYTES, write_route(PK_LONG_UPLINK, 1, 3, 2), 10);
    for (i = 0; i < sizeof front; i++)
        IS(frames[i], front[i]);
    read_back(10, PK_ROUTE, 2, 6);
    IS(packet[1], 1); /* OF */
    IS(packet[2], 1); /* IN */
    IS(packet[3], 3); /* RTL */
    OF64(PK_WRITE_BYTES, write_route(PK_LONG_UPLINK, 1, 3, 0), 10);
    read_back(10, PK_ROUTE, 2, 4);
    OF64(PK_WRITE_BYTES, write_route(PK_LONG_UPLINK, 0, 3, 0), 10);
    read_back(10, PK_ROUTE, 2, 3);
    answer = write_route(PK_LONG_UPLINK, 0, 3, 1);
    OF64(PK_NUMBER, answer, PK_OUT_OF_RANGE);
    OF64(PK_WRITE_BYTES, answer, 0);
    OF64(PK_NUMBER, write_route(PK_LONG_UPLINK, 2, 3, 1), PK_OUT_OF_RANGE);
    OF64(PK_NUMBER, write_route(PK_SHORT_UPLINK, 1, 300, 1), PK_SHORT_FORM);
    OF64(PK_NUMBER, write_route(PK_LONG_UPLINK, 1, 256, 0), PK_PACKET_TOO_LONG);
    OF64(PK_WRITE_BYTES, write_route(PK_LONG_UPLINK, 1, 149, 0), 160);
    answer = pk_route_write(PK_LONG_UPLINK, 0, 0, table, 150, message, 0, frames, 159);
    OF64(PK_NUMBER, answer, PK_OUTPUT_TOO_SHORT);
}

/* Where frames are bad: how a frame begins, zeros after that, and its length. */
static const struct {
    uint8_t form, front[10];
    size_t length;
    uint8_t number;
    size_t at;
} bad[] = {
    { PK_LONG_UPLINK, { 0x80, 0, 3 }, 10, PK_DONE, 0 },
    { PK_NO_FORM, { 0x80, 0, 2 }, 10, PK_OUT_OF_RANGE, 0 },
    { PK_LONG_UPLINK, { 0 }, 0, PK_MALFORMED, 0 },
    { PK_LONG_UPLINK, { 0x80, 0, 3 }, 11, PK_MALFORMED, 11 },
    { PK_LONG_UPLINK, { 0x59, 9, 0x32, 0x41, 0x8D, 0xA2, 7 }, 10, PK_FORMAT_ERROR, 0 },
    { PK_LONG_UPLINK, { 0x58, 9, 0x32, 0x41, 0x8D, 0xA2, 0x47 }, 10, PK_FORMAT_ERROR, 6 },
    { PK_LONG_UPLINK, { 0x58, 9, 0x32, 0x41, 0x8D, 0xA2, 6 }, 10, PK_FORMAT_ERROR, 6 },
    { PK_LONG_UPLINK, { 0x80, 0, 2 }, 10, PK_FORMAT_ERROR, 2 },
    { PK_LONG_UPLINK, { 0x80, 0, 3, 0, 0, 0, 0, 0, 0, 1 }, 10, PK_FORMAT_ERROR, 9 },
    { PK_LONG_UPLINK, { 0x80, 0, 3, 0, 0, 1, 0, 0, 0, 1 }, 10, PK_FORMAT_ERROR, 5 },
    { PK_LONG_UPLINK, { 0x5C, 9, 0x32, 0x41 }, 20, PK_FORMAT_ERROR, 10 },
    { PK_LONG_UPLINK, { 0x5C, 9, 0x32, 0x41, 0, 0, 0, 0, 0, 1 }, 20, PK_FORMAT_ERROR, 9 },
    { PK_SHORT_UPLINK, { 0x5C, 9, 0x32, 0x41 }, 14, PK_FORMAT_ERROR, 7 },
    { PK_SHORT_UPLINK, { 0x80, 0, 1 }, 35, PK_PACKET_TOO_LONG, 28 },
    { 1, { 0x80, 0, 3 }, 20, PK_PACKET_TOO_LONG, 10 },
    { PK_LONG_UPLINK, { 0x80, 0, 3 }, 160, PK_PACKET_TOO_LONG, 152 },
    { PK_LONG_UPLINK, { 0x60, 5, 0x37 }, 20, PK_FORMAT_ERROR, 10 },
    { PK_LONG_UPLINK, { 0x60, 5, 0x37, 0, 0, 0, 0, 0, 0, 1 }, 20, PK_FORMAT_ERROR, 9 },
    { PK_LONG_UPLINK, { 0x60, 0xC5, 0x37 }, 10, PK_FORMAT_ERROR, 1 },
    { PK_LONG_UPLINK, { 0x74, 5, 0x32 }, 10, PK_FORMAT_ERROR, 2 },
    { 1, { 0x54, 0x45, 0x32, 0x41, 0x45 }, 10, PK_FORMAT_ERROR, 4 },
    { PK_LONG_UPLINK, { 0x54, 0x45, 0x32, 0x41, 5 }, 10, PK_FORMAT_ERROR, 1 },
    { PK_LONG_UPLINK, { 0x7E, 5, 0x30 }, 10, PK_FORMAT_ERROR, 0 },
    { PK_LONG_UPLINK, { 0x72, 7, 1, 2, 3, 4, 5, 6, 7, 0 }, 10, PK_DONE, 0 },
    { PK_LONG_UPLINK, { 0x72, 8, 1, 2, 3, 4, 5, 6, 7, 8 }, 10, PK_FORMAT_ERROR, 1 },
    { PK_LONG_UPLINK, { 0x72, 6, 1, 2, 3, 4, 5, 6, 2, 0 }, 10, PK_FORMAT_ERROR, 8 },
    { PK_LONG_UPLINK, { 0x70, 8, 1, 2, 3, 4, 5, 6, 7, 8 }, 20, PK_FORMAT_ERROR, 10 },
    { 1, { 0x70, 9, 1, 2, 3, 4, 5, 6, 7, 8 }, 20, PK_PACKET_TOO_LONG, 10 },
};

static void frame_faults(void)
{
    uint64_t answer;
    size_t i;

    for (i = 0; i < sizeof bad / sizeof bad[0]; i++) {
        memset(frames, 0, sizeof frames);
        memcpy(frames, bad[i].front, sizeof bad[i].front);
        answer = pk_frame_read(bad[i].form, frames, bad[i].length, packet, PK_PACKET_BYTES);
        OF64(PK_NUMBER, answer, bad[i].number);
        IS(pk_frame_fault(bad[i].form, frames, bad[i].length), bad[i].at);
    }
}

static uint64_t cut(size_t bytes, size_t places)
{
    return pk_message_cut(PK_LONG_UPLINK, 63, 15, 2, 4, message, bytes, frames, sizeof frames,
                          lengths, places);
}

static uint64_t join(size_t count, size_t bytes)
{
    return pk_message_join(PK_LONG_UPLINK, lengths, count, frames, bytes, message, sizeof message);
}

static void messages(void)
{
    uint64_t answer = cut(300, 4);

    OF64(PK_NUMBER, answer, PK_DONE);
    OF64(PK_CUT_FRAMES, answer, 3);
    OF64(PK_CUT_BYTES, answer, 330);
    answer = join(3, 330);
    OF64(PK_NUMBER, answer, PK_DONE);
    OF64(PK_JOIN_BYTES, answer, 300);
    OF64(PK_NUMBER, join(2, 320), PK_MALFORMED);
    frames[160] ^= 1; /* SN of the second frame */
    answer = join(3, 330);
    OF64(PK_NUMBER, answer, PK_RUN_BROKEN);
    OF64(PK_JOIN_BYTES, answer, 0);
    answer = cut(300, 2);
    OF64(PK_NUMBER, answer, PK_OUTPUT_TOO_SHORT);
    OF64(PK_CUT_FRAMES, answer, 0);
    OF64(PK_CUT_BYTES, answer, 0);
    OF64(PK_NUMBER, cut(4097, 4), PK_MESSAGE_TOO_LONG);
    answer = pk_message_cut(PK_SHORT_UPLINK, 63, 15, 2, 4, message, 4097, frames, sizeof frames,
                            lengths, 4);
    OF64(PK_NUMBER, answer, PK_SHORT_FORM);
    OF64(PK_CUT_FRAMES, answer, 0);
    OF64(PK_CUT_BYTES, answer, 0);
}

/* So many frames and bytes of those in `frames`, to be joined into so much room. */
static void joined(size_t count, size_t bytes, size_t room, uint8_t number, size_t at)
{
    uint64_t answer = pk_message_join(PK_LONG_UPLINK, lengths, count, frames, bytes, message, room);

    OF64(PK_NUMBER, answer, number);
    IS(pk_message_fault(PK_LONG_UPLINK, lengths, count, frames, bytes, room), at);
}

/* Three frames of 10 bytes, SN 63, 0, 1 and PS 15, 0, 1, each with one byte of user data. */
static void three_frames(void)
{
    static const uint8_t front[][4] = {
        { 0xFF, 0xF0, 4, 7 }, { 0xC0, 0, 4, 8 }, { 0x81, 0x10, 4, 9 },
    };
    size_t i;

    memset(frames, 0, sizeof frames);
    for (i = 0; i < 3; i++) {
        memcpy(frames + 10 * i, front[i], sizeof front[i]);
        lengths[i] = 10;
    }
}

static void message_faults(void)
{
    static const uint8_t confirmation[] = { 0x5C, 9, 0x32, 0x41 };

    three_frames();
    joined(3, 30, 3, PK_DONE, 0);
    joined(3, 30, 2, PK_OUTPUT_TOO_SHORT, 30);
    joined(3, 29, 3, PK_MALFORMED, 29); /* the lengths don't sum */
    joined(0, 0, 3, PK_MALFORMED, 0);
    joined(2, 20, 3, PK_MALFORMED, 10); /* M of the last frame */
    lengths[2] = 9;
    joined(3, 29, 3, PK_MALFORMED, 29); /* no whole segments */
    lengths[2] = 10;
    frames[20] = 0x82;
    joined(3, 30, 3, PK_RUN_BROKEN, 20);
    frames[29] = 1;
    joined(3, 30, 3, PK_FORMAT_ERROR, 29); /* padding, which is read before SN is compared */
    frames[10] = 0x80;
    joined(3, 30, 3, PK_FORMAT_ERROR, 10); /* M before the last frame */
    IS(pk_message_fault(PK_NO_FORM, lengths, 3, frames, 30, 3), 0);
    three_frames();
    lengths[2] = 160;
    joined(3, 180, 3, PK_PACKET_TOO_LONG, 20 + 152);
    memcpy(frames + 20, confirmation, sizeof confirmation);
    lengths[2] = 10;
    joined(3, 30, 3, PK_FORMAT_ERROR, 20);
}

static uint32_t update(const uint8_t *list, size_t bytes, size_t places)
{
    return pk_table_update(table, PK_TABLE_BYTES, list, bytes, lost, places);
}

static void routes(void)
{
    static const uint8_t adds[] = { 0x59, 0x12, 0x40, 0xF8, 0x40 }, deletes[] = { 0x50, 0x12 };
    uint32_t answer = pk_table_empty(table, LESS(PK_TABLE_BYTES));

    OF32(PK_NUMBER, answer, PK_NOT_IN_ORDER);
    OF32(PK_NUMBER, pk_table_empty(table, PK_TABLE_BYTES), PK_DONE);
    OF32(PK_UPDATE_LOST, update(adds, sizeof adds, PK_LOST), 0);
    OF32(PK_CODES_SET, pk_table_codes(table, PK_TABLE_BYTES, 0x40), 0x8020);
    OF32(PK_COUNT_CODES, pk_table_count(table, PK_TABLE_BYTES, 0x40), 2);
    OF32(PK_CODES_SET, pk_table_codes(table, 0, 0x40), 0);
    OF32(PK_COUNT_CODES, pk_table_count(table, 0, 0x40), 0);
    answer = update(deletes, sizeof deletes, LESS(PK_LOST));
    OF32(PK_NUMBER, answer, PK_OUTPUT_TOO_SHORT);
    OF32(PK_UPDATE_LOST, answer, 0);
    OF32(PK_NUMBER, update(deletes, 1, PK_LOST), PK_ROUTE_LIST_MALFORMED);
    OF32(PK_UPDATE_LOST, update(deletes, sizeof deletes, PK_LOST), 1);
    IS(lost[0], 0x12);
    OF32(PK_CHOOSE_CODE, pk_table_choose(table, PK_TABLE_BYTES, 0x40, 15, 0), 15);
    answer = pk_table_choose(table, PK_TABLE_BYTES, 0x12, PK_NO_CODE, 0);
    OF32(PK_NUMBER, answer, PK_NO_INTERROGATOR);
    OF32(PK_CHOOSE_CODE, answer, 0);
    IS(answer, PK_NO_INTERROGATOR);
}

static void choice(void)
{
    OF32(PK_CHOOSE_CODE, pk_choose(0x8020, PK_NO_CODE, 0), 5);
    OF32(PK_CHOOSE_CODE, pk_choose(0x8020, PK_NO_CODE, 0x20), 15);
    OF32(PK_NUMBER, pk_choose(0x8020, PK_NO_CODE - 1, 0), PK_OUT_OF_RANGE);
    OF32(PK_NUMBER, pk_choose(0x8020, PK_NO_CODE, 0x8020), PK_ALL_FAILED);
    OF32(PK_CHOOSE_CODE, pk_choose(0x8020, PK_NO_CODE, 0x8020), 0);
    IS(pk_choose(0, PK_NO_CODE, 0), PK_NO_INTERROGATOR);
    /* the codes with which such a call is cleared, where CC and DC stand in a CLEAR REQUEST */
    memset(packet, 0, sizeof packet);
    packet[0] = PK_CLEAR_REQUEST;
    packet[6] = PK_NO_INTERROGATOR_CAUSE;
    packet[7] = PK_NO_INTERROGATOR_DIAGNOSTIC;
    OF64(PK_WRITE_BYTES, write_frame(PK_LONG_UPLINK, 0), 10);
    IS(frames[4], 0x8D);
    IS(frames[5], 0xA2);
}

/* The numbers that the header's text names in words. */
static void constants(void)
{
    static const unsigned refusals[] = {
        PK_DONE, PK_OUT_OF_RANGE, PK_MALFORMED, PK_FORMAT_ERROR, PK_MESSAGE_TOO_LONG,
        PK_OUTPUT_TOO_SHORT, PK_ROUTE_LIST_MALFORMED, PK_NO_CLOCK, PK_NO_INTERROGATOR,
        PK_WINDOW_CLOSED, PK_OUTSIDE_WINDOW, PK_OUT_OF_SEQUENCE, PK_FIRST_NOT_ZERO,
        PK_PACKET_TOO_LONG, PK_NOT_IN_ORDER, PK_ALL_FAILED, PK_NEVER_SENT, PK_RUN_BROKEN,
    };
    static const unsigned kinds_in_order[] = {
        PK_DATA, PK_CLEAR_REQUEST, PK_CLEAR_CONFIRMATION, PK_CALL_REQUEST, PK_CALL_ACCEPT, PK_RR,
        PK_RNR, PK_REJECT, PK_INTERRUPT, PK_INTERRUPT_CONFIRMATION, PK_RESET,
        PK_RESET_CONFIRMATION, PK_ROUTE,
    };
    unsigned number;

    for (number = 0; number < sizeof kinds_in_order / sizeof kinds_in_order[0]; number++)
        check("a kind's number", kinds_in_order[number], number);
    IS(number, 13);
    for (number = 0; number < sizeof refusals / sizeof refusals[0]; number++)
        check("a refusal's number", refusals[number], number);
    IS(number, 18);
    IS(PK_SHORT_FORM, 23);
    IS(PK_SENDER_BYTES, 3);
    IS(PK_RECEIVER_BYTES, 3);
    IS(PK_RESEQUENCER_BYTES, 146);
    IS(PK_TICKETS, 32);
    IS(PK_PACKET_BYTES, 10);
    IS(PK_TABLE_BYTES, 512);
    IS(PK_LOST, 256);
    IS(PK_SHORT_UPLINK, 0);
    IS(PK_LONG_UPLINK, 17);
    IS(PK_NO_FORM, 255);
    IS(PK_NO_CODE, 65535);
    IS(PK_NO_INTERROGATOR_CAUSE, 141);
    IS(PK_NO_INTERROGATOR_DIAGNOSTIC, 162);
}

int main(void)
{
    constants();
    window();
    hold();
    receiving();
    resequencer();
    forms();
    kinds();
    layouts();
    route_frames();
    frame_faults();
    messages();
    message_faults();
    routes();
    choice();
    printf("bindings/c/accessors.c: %u values of the header's macros and calls are right\n",
           checked);
    return 0;
}
