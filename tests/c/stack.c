/* How much stack does a call take? Each call is made on a stack of its own that is painted first; the deepest byte that is not paint any more tells.
 * Every function is called, board and shard group with every kind of frame that they take, with four operations on four shards, and with one that
 * they refuse. The most of all must be no more than the header's REGISTER_STACK, and more than half of it. */
#define _XOPEN_SOURCE 700
#include <stdio.h>
#include <string.h>
#include <ucontext.h>

#include "register.h"

enum { PAINT = 0xA5, SHARDS = 4 };

static _Alignas(64) uint8_t stack[4 * 65536];
static ucontext_t here, there;
static size_t most;

static Board head, tail;
static Shard shards[SHARDS];
static Session lift;
static uint8_t out[REGISTER_OUT], frame[REGISTER_FRAME];
static size_t length;
static unsigned refused;

/* how many bytes from the stack's top down to the deepest that is not paint */
static size_t deepest(void)
{
    size_t untouched = 0;
    while (untouched < sizeof stack && stack[untouched] == PAINT)
        untouched++;
    return sizeof stack - untouched;
}

static void measure(const char *name, void (*call)(void))
{
    memset(stack, PAINT, sizeof stack);
    getcontext(&there);
    there.uc_stack.ss_sp = stack;
    there.uc_stack.ss_size = sizeof stack;
    there.uc_link = &here;
    makecontext(&there, call, 0);
    swapcontext(&here, &there);
    printf("%s %zu\n", name, deepest());
    if (most < deepest())
        most = deepest();
}

/* A frame of the last out area is the next that is handed in. */
static void carry(const uint8_t *from)
{
    length = 2 + (size_t)from[0] + 256 * (size_t)from[1];
    memcpy(frame, from, length);
}

static void start_head(void) { refused += board_start(&head, 2, SHARDS, 1) != 0; }
static void start_tail(void) { refused += board_start(&tail, 2, SHARDS, 2) != 0; }
static void start_shards(void)
{
    for (uint8_t j = 0; j < SHARDS; j++)
        refused += shard_start(&shards[j], SHARDS, j + 1) != 0;
}
static void start_lift(void) { refused += session_start(&lift, 3) != 0; }
static void invoke(void)
{
    Operations list = {SHARDS, {{0, 0, 0}, {0, 1, 0}, {0, 2, 0}, {0, 3, 0}}};
    refused += session_invoke(&lift, list, out, sizeof out).answer != 0;
}
static void retry(void) { refused += session_retry(&lift, 0, out, sizeof out).answer != 0; }
static void step_head(void) { refused += board_step(&head, frame, length, out, sizeof out).answer != 0; }
static void step_tail(void) { refused += board_step(&tail, frame, length, out, sizeof out).answer != 0; }
static void step_shard(void) { refused += shard_step(&shards[frame[4] - 1], frame, length, out, sizeof out).answer != 0; }
static void respond(void) { refused += session_response(&lift, frame, length).answer != 0; }

int main(void)
{
    uint8_t appends[REGISTER_OUT];
    measure("board_start", start_head);
    measure("board_start", start_tail);
    measure("shard_start", start_shards);
    measure("session_start", start_lift);
    measure("session_invoke", invoke);
    measure("session_retry", retry);
    carry(out);
    measure("board_step, Submit", step_head);
    carry(out);
    measure("board_step, Forward", step_tail);
    memcpy(appends, out, sizeof out);
    for (size_t at = 0, j = 0; j < SHARDS; j++) {
        carry(appends + at);
        at += length;
        measure("shard_step", step_shard);
        carry(out);
        measure("board_step, ExecNotif", step_tail);
    }
    carry(out);
    measure("board_step, Executed", step_head);
    carry(out);
    measure("session_response", respond);
    if (refused != 0) {
        printf("error: a call was refused that should be taken\n");
        return 1;
    }
    measure("session_response, refused", respond);
    measure("board_step, refused", step_head);
    frame[4] = 1;
    measure("shard_step, refused", step_shard);
    printf("the most is %zu bytes, the header says %d\n", most, REGISTER_STACK);
    return refused == 3 && most <= REGISTER_STACK && most > REGISTER_STACK / 2 ? 0 : 1;
}
