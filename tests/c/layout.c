/* Does the header say how the library's records lie? Two checks:
 *   1. each record's size and alignment, and each field's offset and size, beside the table that is proved of the library's types (layout.inc, which .ci/c-tests
 *      makes of crates/register/proofs/InMemory.antt);
 *   2. the library itself: a run that gives every field of every record a value of its own, each read through the header; the same run once
 *      more over another memory and another stack; starts in the memory that it used; and starts on memory full of garbage, with guards
 *      around it. */
#include <stdio.h>
#include <string.h>

#include "register.h"

static unsigned passed, failed;

static void expect(const char *what, unsigned long long got, unsigned long long want)
{
    if (got == want) {
        passed++;
    } else {
        failed++;
        printf("error: %s is %llu, and should be %llu\n", what, got, want);
    }
}

#define IS(field, want) expect(#field, (unsigned long long)(field), (unsigned long long)(want))

/* ---- 1. The table */

enum { MOST_FIELDS = 12 };

typedef struct {
    const char *name;
    size_t size, align, offsets[MOST_FIELDS], sizes[MOST_FIELDS];
} Lies;

static const Lies library[] = {
#include "layout.inc"
};

/* X(T, field) for each field of the record T, in order */
#define ITEM_FIELDS(X) X(Item, place) X(Item, code) X(Item, key) X(Item, value)
#define ENTRY_FIELDS(X) X(Entry, client) X(Entry, number) X(Entry, count) X(Entry, items) X(Entry, exe) X(Entry, reads) X(Entry, remaining)
#define QUEUE_FIELDS(X) X(Queue, numbers) X(Queue, len) X(Queue, taken)
#define BOARD_FIELDS(X) X(Board, log) X(Board, len) X(Board, names) X(Board, touched) X(Board, next) X(Board, floor) X(Board, queues) X(Board, n) X(Board, m) X(Board, own) X(Board, started)
#define CELL_FIELDS(X) X(Cell, value) X(Cell, log_number) X(Cell, present)
#define SHARD_FIELDS(X) X(Shard, cells) X(Shard, ssn) X(Shard, last_run) X(Shard, m) X(Shard, own) X(Shard, started)
#define SLOT_FIELDS(X) X(Slot, number) X(Slot, count) X(Slot, items)
#define WINDOW_FIELDS(X) X(Window, next) X(Window, slots)
#define SESSION_FIELDS(X) X(Session, window) X(Session, client) X(Session, started)
#define ASKED_FIELDS(X) X(Asked, code) X(Asked, key) X(Asked, value)
#define OPERATIONS_FIELDS(X) X(Operations, count) X(Operations, items)
#define SENT_FIELDS(X) X(Sent, answer) X(Sent, number) X(Sent, frames) X(Sent, bytes)
#define REPLY_FIELDS(X) X(Reply, answer) X(Reply, number) X(Reply, count) X(Reply, reads)
#define STEPPED_FIELDS(X) X(Stepped, answer) X(Stepped, frames) X(Stepped, bytes)
#define OFFSET(T, field) offsetof(T, field),
#define SIZE(T, field) sizeof(((T *)0)->field),
#define RECORD(T, FIELDS) {#T, sizeof(T), _Alignof(T), {FIELDS(OFFSET)}, {FIELDS(SIZE)}}

static const Lies header[] = {
    RECORD(Item, ITEM_FIELDS),
    RECORD(Entry, ENTRY_FIELDS),
    RECORD(Queue, QUEUE_FIELDS),
    RECORD(Board, BOARD_FIELDS),
    RECORD(Cell, CELL_FIELDS),
    RECORD(Shard, SHARD_FIELDS),
    RECORD(Slot, SLOT_FIELDS),
    RECORD(Window, WINDOW_FIELDS),
    RECORD(Session, SESSION_FIELDS),
    RECORD(Asked, ASKED_FIELDS),
    RECORD(Operations, OPERATIONS_FIELDS),
    RECORD(Sent, SENT_FIELDS),
    RECORD(Reply, REPLY_FIELDS),
    RECORD(Stepped, STEPPED_FIELDS),
};

static void table(void)
{
    size_t records = sizeof header / sizeof header[0];
    char what[96];
    expect("the number of records in the table", sizeof library / sizeof library[0], records);
    for (size_t i = 0; i < records && i < sizeof library / sizeof library[0]; i++) {
        snprintf(what, sizeof what, "record %zu's name, %s beside %s", i, header[i].name, library[i].name);
        expect(what, (unsigned long long)strcmp(header[i].name, library[i].name), 0);
        snprintf(what, sizeof what, "the size of %s", header[i].name);
        expect(what, header[i].size, library[i].size);
        snprintf(what, sizeof what, "the alignment of %s", header[i].name);
        expect(what, header[i].align, library[i].align);
        for (size_t k = 0; k < MOST_FIELDS; k++) {
            snprintf(what, sizeof what, "the offset of field %zu of %s", k, header[i].name);
            expect(what, header[i].offsets[k], library[i].offsets[k]);
            snprintf(what, sizeof what, "the size of field %zu of %s", k, header[i].name);
            expect(what, header[i].sizes[k], library[i].sizes[k]);
        }
    }
}

/* ---- 2. The library */

static Board head, tail;
static Shard group;
static Session session;
static uint8_t out[REGISTER_OUT + 8];

/* The stack that the next call finds: through a pointer, so that it lies where that call's will. */
static unsigned fill;

static void paint(void)
{
    volatile uint8_t below[REGISTER_STACK];
    for (size_t i = 0; i < sizeof below; i++) below[i] = (uint8_t)fill;
}

static void (*volatile painted)(void) = paint;

static Stepped at_board(Board *b, const uint8_t *frame, size_t length)
{
    painted();
    return board_step(b, frame, length, out, sizeof out);
}

static Stepped at_shard(Shard *s, const uint8_t *frame, size_t length)
{
    painted();
    return shard_step(s, frame, length, out, sizeof out);
}

/* Client 9 of a chain of two boards over three shard groups. Its first orders carry keys of shard 2, so that shard 2 of 3 hears of each. */
static void run(void)
{
    static const Operations first = {1, {{1, 4, 70001}, {0, 0, 0}, {0, 0, 0}, {0, 0, 0}}};
    static const Operations second = {4, {{1, 7, 70002}, {0, 4, 0}, {1, 10, 70003}, {0, 7, 0}}};
    uint8_t frame[REGISTER_OUT], answer[8];
    Stepped step;
    Sent sent;
    Reply reply;

    painted();
    IS(session_start(&session, 9), 0);
    painted();
    IS(board_start(&head, 2, 3, 1), 0);
    painted();
    IS(board_start(&tail, 2, 3, 2), 0);
    painted();
    IS(shard_start(&group, 3, 2), 0);
    IS(session.client, 9);
    IS(session.started, 1);
    IS(head.n, 2);
    IS(head.m, 3);
    IS(head.own, 1);
    IS(head.started, 1);
    IS(tail.own, 2);
    IS(group.m, 3);
    IS(group.own, 2);
    IS(group.started, 1);

    /* number 0 goes all the way, and its answer back; number 1 goes with ack 1 */
    for (unsigned number = 0; number < 2; number++) {
        painted();
        sent = session_invoke(&session, number == 0 ? first : second, out, sizeof out);
        IS(sent.answer, 0);
        IS(sent.number, number);
        IS(sent.frames, 1);
        IS(sent.bytes, number == 0 ? 16 : 34);
        IS(session.window.next, number + 1);
        IS(session.window.slots[number].number, number);
        IS(session.window.slots[number].count, number == 0 ? 1 : 4);
        memcpy(frame, out, sent.bytes);
        step = at_board(&head, frame, sent.bytes);
        IS(step.answer, 0);
        IS(step.frames, 1);
        IS(step.bytes, number == 0 ? 18 : 36);
        memcpy(frame, out, step.bytes);
        step = at_board(&tail, frame, step.bytes);
        IS(step.bytes, number == 0 ? 17 : 38);
        IS(tail.queues[1].len, 1);
        IS(tail.queues[1].numbers[0], number);
        memcpy(frame, out, step.bytes);
        step = at_shard(&group, frame, step.bytes);
        IS(step.answer, 0);
        IS(step.bytes, number == 0 ? 8 : 20);
        memcpy(frame, out, step.bytes);
        step = at_board(&tail, frame, step.bytes);
        IS(step.bytes, number == 0 ? 7 : 19);
        IS(tail.queues[1].len, 0);
        IS(tail.queues[1].taken, number + 1);
        if (number == 1) break;
        memcpy(frame, out, step.bytes);
        step = at_board(&head, frame, step.bytes);
        IS(step.bytes, 8);
        memcpy(answer, out, sizeof answer);
        painted();
        reply = session_response(&session, answer, sizeof answer);
        IS(reply.answer, 0);
        IS(reply.count, 0);
    }
    IS(session.window.slots[1].items[3].place, 3);
    IS(session.window.slots[1].items[2].code, 1);
    IS(session.window.slots[1].items[2].key, 10);
    IS(session.window.slots[1].items[2].value, 70003);
    IS(group.ssn, 2);
    IS(group.last_run, 2);
    IS(group.cells[10].value, 70003);
    IS(group.cells[10].log_number, 1);
    IS(group.cells[10].present, 1);
    IS(group.cells[11].present, 0);

    /* the head still has number 1 as PRE, with shard 2 remaining and waiting in its queue */
    IS(head.len, 2);
    IS(head.log[1].client, 9);
    IS(head.log[1].number, 1);
    IS(head.log[1].count, 4);
    IS(head.log[1].items[3].place, 3);
    IS(head.log[1].items[2].code, 1);
    IS(head.log[1].items[1].key, 4);
    IS(head.log[1].items[0].value, 70002);
    IS(head.log[1].exe, 0);
    IS(head.log[1].remaining, 2);
    IS(head.names[1], 9 * 65536 + 1);
    IS(head.touched[1], 2);
    IS(head.next[9], 2);
    IS(head.floor[9], 1);
    IS(head.queues[1].numbers[0], 1);
    IS(head.queues[1].len, 1);
    IS(head.queues[1].taken, 1);
    IS(tail.log[1].exe, 1);
    IS(tail.log[1].reads[3].place, 3);
    IS(tail.log[1].reads[1].code, 1);
    IS(tail.log[1].reads[1].value, 70001);
    IS(tail.log[1].remaining, 0);

    /* a repeat of the answer is refused, a short out area too; then number 1's answer is taken */
    painted();
    reply = session_response(&session, answer, sizeof answer);
    IS(reply.answer, 7);
    painted();
    sent = session_retry(&session, 1, out, REGISTER_OUT - 1);
    IS(sent.answer, 11);
    IS(sent.number, 0);
    painted();
    sent = session_retry(&session, 1, out, REGISTER_OUT);
    IS(sent.answer, 0);
    IS(sent.number, 1);
    IS(sent.bytes, 34);
    static const uint8_t response[] = {18, 0, 6, 0, 9, 1, 0, 2, 1, 1, 113, 17, 1, 0, 3, 1, 114, 17, 1, 0};
    painted();
    reply = session_response(&session, response, sizeof response);
    IS(reply.answer, 0);
    IS(reply.number, 1);
    IS(reply.count, 2);
    IS(reply.reads[0].place, 1);
    IS(reply.reads[0].code, 1);
    IS(reply.reads[0].value, 70001);
    IS(reply.reads[1].place, 3);
    IS(reply.reads[1].value, 70002);
    IS(session.window.slots[1].count, 0);
}

/* The same run over another memory and another stack leaves the same bytes in every record, also between the fields, of which no contract speaks. */
static void run_twice(void)
{
    static Board heads[2], tails[2];
    static Shard groups[2];
    static Session sessions[2];

    for (unsigned i = 0; i < 2; i++) {
        fill = i == 0 ? 0x77 : 0x88;
        memset(&head, (int)fill, sizeof head);
        memset(&tail, (int)fill, sizeof tail);
        memset(&group, (int)fill, sizeof group);
        memset(&session, (int)fill, sizeof session);
        run();
        memcpy(&heads[i], &head, sizeof head);
        memcpy(&tails[i], &tail, sizeof tail);
        memcpy(&groups[i], &group, sizeof group);
        memcpy(&sessions[i], &session, sizeof session);
    }
    IS(memcmp(&heads[0], &heads[1], sizeof head) != 0, 0);
    IS(memcmp(&tails[0], &tails[1], sizeof tail) != 0, 0);
    IS(memcmp(&groups[0], &groups[1], sizeof group) != 0, 0);
    IS(memcmp(&sessions[0], &sessions[1], sizeof session) != 0, 0);
}

/* A start on garbage, taken or refused, leaves what one on zeros leaves, the bytes between the fields too; and nothing beside the record
 * changes. */
enum { GUARD = 64 };

#define ON_GARBAGE(T, start, answer, differs)                                                                                              \
    do {                                                                                                                                   \
        static struct {                                                                                                                    \
            uint8_t before[GUARD];                                                                                                         \
            T record;                                                                                                                      \
            uint8_t behind[GUARD];                                                                                                         \
        } room;                                                                                                                            \
        static T fresh;                                                                                                                    \
        T *r = &fresh;                                                                                                                     \
        IS(start, answer);                                                                                                                 \
        for (fill = 1; fill < 256; fill += 127) {                                                                                          \
            unsigned touched = 0;                                                                                                          \
            memset(&room, (int)fill, sizeof room);                                                                                         \
            r = &room.record;                                                                                                              \
            painted();                                                                                                                     \
            IS(start, answer);                                                                                                             \
            for (size_t i = 0; i < GUARD; i++) touched += (room.before[i] != fill) + (room.behind[i] != fill);                             \
            expect("bytes touched beside a " #T, touched, 0);                                                                              \
            expect("fields of a " #T " that kept something", differs(&room.record, &fresh), 0);                                            \
            expect("a " #T " with bytes that differ", memcmp(&room.record, &fresh, sizeof fresh) != 0, 0);                                 \
        }                                                                                                                                  \
    } while (0)

static unsigned items_differ(const Item *a, const Item *b)
{
    unsigned d = 0;
    for (size_t i = 0; i < REGISTER_OPERATIONS; i++) d += a[i].place != b[i].place || a[i].code != b[i].code || a[i].key != b[i].key || a[i].value != b[i].value;
    return d;
}

static unsigned session_differs(const Session *a, const Session *b)
{
    unsigned d = (a->window.next != b->window.next) + (a->client != b->client) + (a->started != b->started);
    for (size_t i = 0; i < REGISTER_WINDOW; i++) {
        const Slot *x = &a->window.slots[i], *y = &b->window.slots[i];
        d += (x->number != y->number) + (x->count != y->count) + items_differ(x->items, y->items);
    }
    return d;
}

static unsigned shard_differs(const Shard *a, const Shard *b)
{
    unsigned d = (a->ssn != b->ssn) + (a->last_run != b->last_run) + (a->m != b->m) + (a->own != b->own) + (a->started != b->started);
    for (size_t k = 0; k < REGISTER_KEYS; k++) {
        const Cell *x = &a->cells[k], *y = &b->cells[k];
        d += (x->value != y->value) + (x->log_number != y->log_number) + (x->present != y->present);
    }
    return d;
}

static unsigned board_differs(const Board *a, const Board *b)
{
    unsigned d = (a->len != b->len) + (a->n != b->n) + (a->m != b->m) + (a->own != b->own) + (a->started != b->started);
    for (size_t p = 0; p < REGISTER_LOG; p++) {
        const Entry *x = &a->log[p], *y = &b->log[p];
        d += (x->client != y->client) + (x->number != y->number) + (x->count != y->count) + (x->exe != y->exe) + (x->remaining != y->remaining);
        d += items_differ(x->items, y->items) + items_differ(x->reads, y->reads);
        d += (a->names[p] != b->names[p]) + (a->touched[p] != b->touched[p]);
    }
    for (size_t c = 0; c < REGISTER_CLIENTS; c++) d += (a->next[c] != b->next[c]) + (a->floor[c] != b->floor[c]);
    for (size_t j = 0; j < REGISTER_SHARDS_MOST; j++) {
        const Queue *x = &a->queues[j], *y = &b->queues[j];
        d += (x->len != y->len) + (x->taken != y->taken);
        for (size_t i = 0; i < REGISTER_LOG; i++) d += x->numbers[i] != y->numbers[i];
    }
    return d;
}

/* The boards, the shard group and the session of run() go to another park: what they held is joined to nothing there. */
static void swapped(void)
{
    static const uint8_t submit[] = {14, 0, 1, 0, 9, 0, 0, 0, 0, 1, 1, 5, 232, 3, 0, 0};      /* client 9, number 0: held before, new now */
    static const uint8_t executed[] = {5, 0, 5, 0, 1, 0, 0};                                    /* log number 1 */
    static const uint8_t exec_notif[] = {6, 0, 4, 0, 2, 0, 0, 0};                               /* shard 2, log number 0 */
    static const uint8_t append_next[] = {15, 0, 3, 0, 2, 2, 0, 3, 0, 1, 0, 0, 10, 0, 0, 0, 0}; /* sn 3, after the two that ran */
    static const uint8_t append_first[] = {15, 0, 3, 0, 2, 0, 0, 1, 0, 1, 0, 0, 10, 0, 0, 0, 0}; /* sn 1: get key 10, which was put */
    static const uint8_t response[] = {6, 0, 6, 0, 9, 0, 0, 0};                                 /* number 0 */
    static const Operations operations = {1, {{1, 5, 1000}, {0, 0, 0}, {0, 0, 0}, {0, 0, 0}}};
    static Board fresh_head, fresh_tail;
    static Shard fresh_group;
    static Session fresh_session;
    Sent sent;

    IS(board_start(&head, 4, 3, 1), 0);
    IS(board_start(&fresh_head, 4, 3, 1), 0);
    IS(board_start(&tail, 4, 3, 4), 0);
    IS(board_start(&fresh_tail, 4, 3, 4), 0);
    IS(shard_start(&group, 3, 2), 0);
    IS(shard_start(&fresh_group, 3, 2), 0);
    IS(session_start(&session, 9), 0);
    IS(session_start(&fresh_session, 9), 0);
    IS(board_differs(&head, &fresh_head), 0);
    IS(board_differs(&tail, &fresh_tail), 0);
    IS(shard_differs(&group, &fresh_group), 0);
    IS(session_differs(&session, &fresh_session), 0);

    IS(at_board(&head, executed, sizeof executed).answer, 6);
    IS(at_board(&head, submit, sizeof submit).answer, 0);
    IS(head.len, 1);
    IS(at_board(&tail, exec_notif, sizeof exec_notif).answer, 6);
    IS(at_shard(&group, append_next, sizeof append_next).answer, 4);
    IS(at_shard(&group, append_first, sizeof append_first).answer, 0);
    IS(out[9], 0); /* the read at place 0 is absent */
    IS(session_retry(&session, 0, out, sizeof out).answer, 7);
    IS(session_response(&session, response, sizeof response).answer, 7);
    sent = session_invoke(&session, operations, out, sizeof out);
    IS(sent.answer, 0);
    IS(sent.number, 0);
    IS(memcmp(out, submit, sizeof submit), 0);
}

int main(void)
{
    table();
    run_twice();
    swapped();
    ON_GARBAGE(Session, session_start(r, 15), 0, session_differs);
    ON_GARBAGE(Session, session_start(r, 16), 11, session_differs);
    ON_GARBAGE(Shard, shard_start(r, 8, 7), 0, shard_differs);
    ON_GARBAGE(Shard, shard_start(r, 8, 9), 11, shard_differs);
    ON_GARBAGE(Board, board_start(r, 8, 5, 3), 0, board_differs);
    ON_GARBAGE(Board, board_start(r, 8, 5, 9), 11, board_differs);
    printf("%u passed, %u failed\n", passed, failed);
    return failed == 0 && passed > 0 ? 0 : 1;
}
