/* Two lift controllers share a register of three boards and two shard groups. The network between them loses frames, doubles them and
 * delivers them in any order; the register does not mind. Build it with include/register.h and libregister.a, as .ci/c-tests does.
 *
 * What a firmware program does is all here: start each record once, hand each frame that arrives to the record it is for, send on what
 * stands in the out area, and let a session retry while an answer is missing.
 *
 * One kind the network here never loses: ExecNotif. In this base a shard group answers a repeated ShardAppend by 7 and sends nothing, so
 * that a lost ExecNotif would leave its entry PRE for good (docs/DECISIONS.md). */
#include <inttypes.h>
#include <stdio.h>
#include <string.h>

#include "register.h"

enum { BOARDS = 3, SHARDS = 2, LIFTS = 2, ORDERS = 4, BAG = 4096 };

static Board boards[BOARDS];
static Shard shards[SHARDS];
static Session lifts[LIFTS];
static const uint8_t clients[LIFTS] = {4, 11};

/* The keys of this park: travel limits in millimetres, the lock-out, and a count of rides. */
enum { GET = 0, PUT = 1, UPPER = 1, LOWER = 2, LOCKED = 3, RIDES = 4 };

static const Operations orders[LIFTS][ORDERS] = {
    {
        {3, {{PUT, UPPER, 8200}, {PUT, LOWER, 300}, {PUT, RIDES, 0}}},
        {2, {{GET, UPPER, 0}, {GET, LOCKED, 0}}},
        {3, {{GET, LOCKED, 0}, {PUT, RIDES, 1}, {GET, RIDES, 0}}},
        {4, {{GET, UPPER, 0}, {GET, LOWER, 0}, {GET, LOCKED, 0}, {GET, RIDES, 0}}},
    },
    {
        {2, {{GET, UPPER, 0}, {GET, LOWER, 0}}},
        {2, {{PUT, LOCKED, 1}, {PUT, UPPER, 7900}}},
        {2, {{GET, LOCKED, 0}, {GET, UPPER, 0}}},
        {3, {{PUT, LOCKED, 0}, {GET, LOCKED, 0}, {GET, RIDES, 0}}},
    },
};

/* ---- The transport: a bag of frames. A frame that is put in may be lost or doubled, and comes out at any time. */

typedef enum { TO_BOARD, TO_SHARD, TO_LIFT } Addressee;

typedef struct {
    Addressee who;
    uint8_t which;
    size_t length;
    uint8_t frame[REGISTER_FRAME];
} Letter;

static Letter bag[BAG];
static uint32_t in_bag, posted, lost, doubled, answers[12];
static uint32_t seed = 20240229;

static uint32_t draw(uint32_t below) /* a number below it, by xorshift */
{
    seed ^= seed << 13;
    seed ^= seed >> 17;
    seed ^= seed << 5;
    return seed % below;
}

static void post(Addressee who, uint8_t which, const uint8_t *frame, size_t length)
{
    uint32_t luck = draw(10), copies = luck < 2 ? 2 : luck < 5 && frame[2] != REGISTER_EXEC_NOTIF ? 0 : 1;
    posted++;
    lost += copies == 0;
    doubled += copies == 2;
    while (copies-- > 0 && in_bag < BAG) {
        Letter *letter = &bag[in_bag++];
        letter->who = who;
        letter->which = which;
        letter->length = length;
        memcpy(letter->frame, frame, length);
    }
}

/* The frames of an out area stand back to back, each behind its length; the kind says who it is for. */
static void post_all(uint8_t board, const uint8_t *out, size_t bytes)
{
    for (size_t at = 0; at < bytes;) {
        const uint8_t *frame = out + at;
        size_t length = 2 + (size_t)frame[0] + 256 * (size_t)frame[1];
        switch (frame[2] + 256 * frame[3]) {
        case REGISTER_SUBMIT: post(TO_BOARD, 1, frame, length); break;
        case REGISTER_FORWARD: post(TO_BOARD, board + 1, frame, length); break;
        case REGISTER_SHARD_APPEND: post(TO_SHARD, frame[4], frame, length); break;
        case REGISTER_EXEC_NOTIF: post(TO_BOARD, BOARDS, frame, length); break;
        case REGISTER_EXECUTED: post(TO_BOARD, board - 1, frame, length); break;
        case REGISTER_RESPONSE: post(TO_LIFT, frame[4] == clients[0] ? 0 : 1, frame, length); break;
        }
        at += length;
    }
}

/* ---- The lifts */

static uint32_t answered[LIFTS];

static void print_reply(uint8_t lift, Reply reply)
{
    printf("lift %u, order %u:", clients[lift], reply.number);
    for (uint8_t i = 0; i < reply.count; i++) {
        Item read = reply.reads[i];
        uint8_t key = orders[lift][reply.number].items[read.place].key;
        if (read.code == 1)
            printf(" key %u is %" PRIu32, key, read.value);
        else
            printf(" key %u was never put", key);
        printf("%s", i + 1 < reply.count ? "," : "");
    }
    printf("%s\n", reply.count == 0 ? " written" : "");
}

/* One of the bag's frames arrives. A refusal needs no care: whoever misses the answer will ask again. */
static void deliver(void)
{
    uint8_t out[REGISTER_OUT];
    uint32_t pick = draw(in_bag);
    Letter letter = bag[pick];
    bag[pick] = bag[--in_bag];
    if (letter.who == TO_LIFT) {
        Reply reply = session_response(&lifts[letter.which], letter.frame, letter.length);
        answers[reply.answer]++;
        if (reply.answer == REGISTER_DONE) {
            answered[letter.which]++;
            print_reply(letter.which, reply);
        }
        return;
    }
    Stepped step = letter.who == TO_BOARD ? board_step(&boards[letter.which - 1], letter.frame, letter.length, out, sizeof out)
                                          : shard_step(&shards[letter.which - 1], letter.frame, letter.length, out, sizeof out);
    answers[step.answer]++;
    post_all(letter.which, out, step.bytes);
}

/* A lift gives its next order now and then, and asks again for one that is still outstanding. */
static void act(uint8_t lift)
{
    uint8_t out[REGISTER_OUT];
    Session *s = &lifts[lift];
    uint16_t next = s->window.next;
    Sent sent = next < ORDERS && draw(2) == 0 ? session_invoke(s, orders[lift][next], out, sizeof out)
                                              : session_retry(s, (uint16_t)draw(ORDERS), out, sizeof out);
    post_all(0, out, sent.bytes);
}

int main(void)
{
    for (uint8_t i = 0; i < BOARDS; i++)
        if (board_start(&boards[i], BOARDS, SHARDS, i + 1) != REGISTER_DONE) return 1;
    for (uint8_t j = 0; j < SHARDS; j++)
        if (shard_start(&shards[j], SHARDS, j + 1) != REGISTER_DONE) return 1;
    for (uint8_t i = 0; i < LIFTS; i++)
        if (session_start(&lifts[i], clients[i]) != REGISTER_DONE) return 1;

    while (answered[0] < ORDERS || answered[1] < ORDERS) {
        if (draw(4) == 0 || in_bag == 0)
            act((uint8_t)draw(LIFTS));
        else
            deliver();
    }

    printf("\nposted %" PRIu32 ", lost %" PRIu32 ", doubled %" PRIu32 "; answers", posted, lost, doubled);
    for (uint32_t i = 0; i < 12; i++)
        if (answers[i] > 0) printf(" %" PRIu32 ": %" PRIu32, i, answers[i]);
    printf("\n");
    for (uint32_t i = 0; i < BOARDS; i++) {
        printf("\nthe log of board %" PRIu32 "\n", i + 1);
        for (uint16_t p = 0; p < boards[i].len; p++) {
            const Entry *e = &boards[i].log[p];
            printf("%u: lift %u, order %u, %s:", p, e->client, e->number, e->exe ? "EXE" : "PRE");
            for (uint8_t k = 0; k < e->count; k++)
                if (e->items[k].code == PUT)
                    printf(" put %u = %" PRIu32, e->items[k].key, e->items[k].value);
                else
                    printf(" get %u", e->items[k].key);
            printf("\n");
        }
    }
    return 0;
}
