/* A message is cut into frames, the frames arrive in another order, and the message is joined
 * again. Then an RNR holds the sending end off until an RR comes. Prints what became of each. */
#include <stdio.h>
#include <string.h>

#include "pepperknoll.h"

#define MESSAGE 600
#define FRAMES 8

static uint8_t message[MESSAGE], wire[FRAMES * 160], ordered[FRAMES * 160], joined[MESSAGE];
static size_t lengths[FRAMES], ordered_lengths[FRAMES];

/* The index of a frame among frames of these lengths. */
static size_t start_of(const size_t *all, size_t frame)
{
    size_t at = 0;
    while (frame > 0)
        at += all[--frame];
    return at;
}

static int failed(const char *call, unsigned number)
{
    printf("%s refused %u\n", call, number);
    return 1;
}

/* The frames that have been handed on, in order. */
static size_t handed, filled;

static void hand_on(size_t frame)
{
    ordered_lengths[handed++] = lengths[frame];
    memcpy(ordered + filled, wire + start_of(lengths, frame), lengths[frame]);
    filled += lengths[frame];
}

/* A frame arrives; its ticket is its place among the frames. */
static int arrives(uint8_t *state, size_t frame)
{
    const uint8_t *bytes = wire + start_of(lengths, frame);
    uint8_t packet[PK_PACKET_BYTES], sn;
    uint16_t tickets[PK_TICKETS];
    uint64_t read = pk_frame_read(PK_LONG_UPLINK, bytes, lengths[frame], packet, sizeof packet);
    uint32_t answer;
    size_t k;

    if (PK_NUMBER(read) != PK_DONE)
        return failed("read", PK_NUMBER(read));
    sn = packet[2];
    answer = pk_resequencer_arrive(state, PK_RESEQUENCER_BYTES, tickets, PK_TICKETS, sn,
                                   (uint16_t)frame);
    if (PK_NUMBER(answer) != PK_DONE)
        return failed("arrival", PK_NUMBER(answer));
    printf("SN %d arrives: outcome %d, %d handed on\n", sn, PK_RESEQUENCER_OUTCOME(answer),
           PK_RESEQUENCER_COUNT(answer));
    for (k = 0; k < PK_RESEQUENCER_COUNT(answer); k++)
        hand_on(tickets[k]);
    return 0;
}

/* A packet without user data comes in that tells the sending end how far the other side has got:
 * an RR or an RNR on channel 3. It is written by the other side, and read on this one. */
static int comes_in(uint8_t *sender, uint8_t kind, uint8_t pr)
{
    static const uint8_t none[1];
    uint8_t packet[PK_PACKET_BYTES] = { 0 }, frame[10];
    uint64_t answer;
    uint32_t taken;

    packet[0] = kind;
    packet[1] = 5; /* SN */
    packet[2] = 3; /* CH */
    packet[3] = pr;
    answer = pk_frame_write(PK_LONG_UPLINK, packet, sizeof packet, none, 0, frame, sizeof frame);
    if (PK_NUMBER(answer) != PK_DONE)
        return failed("write", PK_NUMBER(answer));
    answer = pk_frame_read(PK_LONG_UPLINK, frame, sizeof frame, packet, sizeof packet);
    if (PK_NUMBER(answer) != PK_DONE)
        return failed("read", PK_NUMBER(answer));
    taken = packet[0] == PK_RNR ? pk_sender_not_ready(sender, PK_SENDER_BYTES, packet[3])
                                : pk_sender_ready(sender, PK_SENDER_BYTES, packet[3]);
    if (PK_NUMBER(taken) != PK_DONE)
        return failed("PR", PK_NUMBER(taken));
    printf("%s with PR %d comes in: %02X %02X %02X\n", kind == PK_RNR ? "RNR" : "RR", pr, frame[0],
           frame[1], frame[2]);
    return 0;
}

static void sends(uint8_t *sender)
{
    uint32_t answer = pk_sender_send(sender, PK_SENDER_BYTES);

    if (PK_NUMBER(answer) == PK_DONE)
        printf("PS %d may be sent\n", PK_SEND_PS(answer));
    else
        printf("sending is refused with %d\n", PK_NUMBER(answer));
}

static int hold(void)
{
    uint8_t sender[PK_SENDER_BYTES];

    if (PK_NUMBER(pk_sender_fresh(sender, sizeof sender)) != PK_DONE)
        return failed("fresh", PK_NOT_IN_ORDER);
    sends(sender);
    if (comes_in(sender, PK_RNR, 1))
        return 1;
    sends(sender);
    if (comes_in(sender, PK_RR, 1))
        return 1;
    sends(sender);
    return 0;
}

int main(void)
{
    static const size_t order[] = { 1, 0, 3, 3, 2, 4 };
    uint8_t state[PK_RESEQUENCER_BYTES];
    uint64_t cut, join;
    size_t i;

    for (i = 0; i < MESSAGE; i++)
        message[i] = (uint8_t)(i * 7 + 1);
    cut = pk_message_cut(PK_LONG_UPLINK, 62, 14, 5, 3, message, MESSAGE, wire, sizeof wire,
                         lengths, FRAMES);
    if (PK_NUMBER(cut) != PK_DONE)
        return failed("cut", PK_NUMBER(cut));
    printf("%d bytes cut into %zu frames of %zu bytes\n", MESSAGE, PK_CUT_FRAMES(cut),
           PK_CUT_BYTES(cut));

    /* the other side expects SN 62 first: a fresh state, with NESN set by whoever has synchronized
     * the link */
    if (PK_NUMBER(pk_resequencer_fresh(state, sizeof state)) != PK_DONE)
        return failed("fresh", PK_NOT_IN_ORDER);
    state[0] = 62;
    for (i = 0; i < sizeof order / sizeof order[0]; i++)
        if (arrives(state, order[i]))
            return 1;

    join = pk_message_join(PK_LONG_UPLINK, ordered_lengths, handed, ordered, filled, joined,
                           sizeof joined);
    if (PK_NUMBER(join) != PK_DONE)
        return failed("join", PK_NUMBER(join));
    printf("%zu frames joined to %zu bytes: %s\n", handed, PK_JOIN_BYTES(join),
           memcmp(message, joined, MESSAGE) == 0 ? "the message" : "something else");
    return hold();
}
