/* The register of the board chain, for firmware in C: boards hold the log, shard groups hold the keys, sessions are the lift
 * controllers' side. Link with libregister.a (.ci/archive makes it).
 *
 * Each record belongs to your program, which lends it for one call. The library keeps nothing between calls, allocates nothing, and calls
 * nobody but memcpy and memset, which your program must have. So calls that share no record and no area may run at the same time. What
 * each function promises is proved for every input and every state that starts and steps make: the answer, the record and every byte of
 * the out area, refused calls included.
 *
 * Records. Any memory of the record's type will do, static, on the stack or in your own pool, aligned as C aligns the type. On x86-64, for
 * which the library is built, a Board has 26,096 bytes, a Shard 2,060, a Session 296. A start looks at nothing that lies there: what it
 * leaves, and so what every later call gives, depends on its setup alone; a board with another park's log in its memory joins nothing of
 * it. Every other call asks that the record comes from a start and calls of its own kind; to hand in anything else, or to change a field,
 * voids the promises. Fields may be read. A record has no pointer in it and may be copied as a whole. A start writes the bytes between its
 * fields too, and no call was seen to leave anything of the memory or the stack there; that is tested (tests/c/layout.c), not proved: the
 * proofs know fields alone.
 *
 * Stack. A call changes the record where it lies. board_step takes about 700 bytes of stack, each other call less than 450. That is
 * measured (tests/c/stack.c), not proved: the proofs know no stack that runs out.
 *
 * Slices. A pointer and the number of bytes it points at. It must not be null, also where the number is 0. A frame, an out area and a
 * record that are lent to one call must not overlap. An out area may be longer than 68 bytes.
 *
 * Frames. Two bytes of length (of what follows them), two bytes of kind, the body; numbers are little-endian. A frame is handed in as it
 * stood in an out area, its length field included, one for each call. Your transport takes an out area apart by the lengths and brings
 * each frame to whom its kind names (examples/lifts.c). It may lose, double, delay and reorder frames; it must not alter them, nor bring
 * them elsewhere. One loss is not made good in this base: a lost ExecNotif leaves its entry PRE, and its client without an answer.
 *
 * Answers. 0: the step was taken. Its frames stand back to back from the first byte of the out area, the other bytes are untouched, and
 * the counts of frames and bytes are returned. A refusal returns its number, counts 0 and no reads, leaves the record as before (a refused
 * start: empty) and writes no byte of the out area. Where several refusals would apply, the one that its function below names first is
 * given. A frame that is refused may be dropped: what is missing is asked for again by session_retry.
 */
#ifndef REGISTER_H
#define REGISTER_H

#include <stdbool.h>
#include <stddef.h>
#include <stdint.h>

#ifdef __cplusplus
extern "C" {
#endif

/* ---- Sizes */

enum {
    REGISTER_BOARDS_LEAST = 2,      /* boards n: 2..8, numbered 1 (head) to n (tail) */
    REGISTER_BOARDS_MOST = 8,
    REGISTER_SHARDS_MOST = 8,       /* shard groups m: 1..8, numbered from 1; key k belongs to shard (k mod m) + 1 */
    REGISTER_KEYS = 256,            /* keys 0..255 */
    REGISTER_CLIENTS = 16,          /* clients 0..15 */
    REGISTER_LAST_NUMBER = 65534,   /* a client's write numbers: 0..65,534 */
    REGISTER_OPERATIONS = 4,        /* a transaction has 1..4 operations */
    REGISTER_LOG = 256,             /* log numbers 0..255; a log holds at most 256 entries, and none is ever removed */
    REGISTER_WINDOW = 8,            /* a client's window: 8 numbers */
    REGISTER_OUT = 68,              /* an out area must have at least 68 bytes; no step sends more */
    REGISTER_FRAME = 38,            /* the longest frame, its length field included: ShardAppend with four operations */
    REGISTER_STACK = 1024           /* the stack that a call takes, at most: measured on x86-64, not proved */
};

/* ---- Answers */

enum {
    REGISTER_DONE = 0,
    REGISTER_BREAKS_RULE = 1,       /* the frame, or an invoked operation list, breaks a rule of the sizes or of the frames */
    REGISTER_NOT_FOR_ME = 2,        /* the kind isn't for this receiver; or shard isn't its own (kind 3), exceeds m (kind 4), or client isn't its own (kind 6) */
    REGISTER_BELOW_FLOOR = 3,       /* kind 1: number below the client's floor */
    REGISTER_TOO_EARLY = 4,         /* kind 1: number above high + 1; kind 2: log number above the log's length; kind 3: sn above ssn + 1 */
    REGISTER_LOG_FULL = 5,          /* kind 1, new number: the log has 256 entries */
    REGISTER_NOT_IN_LOG = 6,        /* kinds 4, 5: log number not in the log */
    REGISTER_TOO_LATE = 7,          /* kind 3: sn <= ssn; kind 4: shard not remaining in the entry; kind 5: entry already EXE; kind 6 and retry: number not outstanding */
    REGISTER_DOES_NOT_FIT = 8,      /* what the frame says and what is held don't fit: other operations, another client or number, other places */
    REGISTER_WINDOW_FULL = 9,       /* invoke: next number minus the smallest outstanding one is 8 or more */
    REGISTER_NUMBERS_USED_UP = 10,  /* invoke: next number would be 65,535 */
    REGISTER_NOT_USABLE = 11        /* n, m or an own number out of range at start; another call on a state whose start was refused; out area under 68 bytes */
};

/* ---- Kinds of frames: what the two bytes behind the length say */

enum {
    REGISTER_SUBMIT = 1,            /* client to head: session_invoke, session_retry */
    REGISTER_FORWARD = 2,           /* board i to i + 1 */
    REGISTER_SHARD_APPEND = 3,      /* tail to shard; the shard's number is the first byte of the body */
    REGISTER_EXEC_NOTIF = 4,        /* shard to tail */
    REGISTER_EXECUTED = 5,          /* board i to i - 1 */
    REGISTER_RESPONSE = 6           /* head to client; the client's number is the first byte of the body */
};

/* ---- Records. What lies past a count or a length, and what belongs to no client or shard, is zero. */

/* One item of a list. An operation: code 0 get or 1 put, and its place in the list. A read: code is 1 where the key is present and 0
 * where it is absent, then with value 0; its place is that of the get, by which you find the key: the key of a read is 0. */
typedef struct {
    uint8_t place;
    uint8_t code;
    uint8_t key;
    uint32_t value;
} Item;

/* An entry of the log: PRE until exe, then EXE. The reads stand at the places of their gets. Shard j remains where bit j - 1 is set. */
typedef struct {
    uint8_t client;
    uint16_t number;
    uint8_t count;
    Item items[REGISTER_OPERATIONS];
    bool exe;
    Item reads[REGISTER_OPERATIONS];
    uint8_t remaining;
} Entry;

/* A shard's queue at a board: the first len of numbers wait; taken is one more than the last number taken from it, 0 for none. */
typedef struct {
    uint16_t numbers[REGISTER_LOG];
    size_t len;
    uint32_t taken;
} Queue;

/* Board own of a chain of n, over m shard groups. The first len entries of log; an entry's log number is its place. Per entry its client
 * and number in one word (names) and its shards as a mask (touched); per client next, which is high + 1, and floor; per shard its queue. */
typedef struct {
    Entry log[REGISTER_LOG];
    uint16_t len;
    uint32_t names[REGISTER_LOG];
    uint8_t touched[REGISTER_LOG];
    uint32_t next[REGISTER_CLIENTS];
    uint16_t floor[REGISTER_CLIENTS];
    Queue queues[REGISTER_SHARDS_MOST];
    uint8_t n;
    uint8_t m;
    uint8_t own;
    bool started;
} Board;

/* What a shard group has for a key: the value last put and the log number that put it. */
typedef struct {
    uint32_t value;
    uint16_t log_number;
    bool present;
} Cell;

/* Shard group own of m. last_run is one more than the last log number run, 0 for none. */
typedef struct {
    Cell cells[REGISTER_KEYS];
    uint16_t ssn;
    uint32_t last_run;
    uint8_t m;
    uint8_t own;
    bool started;
} Shard;

/* An outstanding number with its operations; a slot with count 0 is free. */
typedef struct {
    uint16_t number;
    uint8_t count;
    Item items[REGISTER_OPERATIONS];
} Slot;

/* The next number, and each outstanding number in the slot number mod 8. */
typedef struct {
    uint16_t next;
    Slot slots[REGISTER_WINDOW];
} Window;

typedef struct {
    Window window;
    uint8_t client;
    bool started;
} Session;

/* An operation as it is asked for: code 0 get or 1 put; the value of a get is 0. */
typedef struct {
    uint8_t code;
    uint8_t key;
    uint32_t value;
} Asked;

/* The list handed to session_invoke: the first count operations, 1 to 4. What lies behind them is neither looked at nor kept. */
typedef struct {
    uint8_t count;
    Asked items[REGISTER_OPERATIONS];
} Operations;

/* The answer of session_invoke and session_retry: the number that Submit carries. Of a refusal all but the answer is 0. */
typedef struct {
    uint8_t answer;
    uint16_t number;
    uint8_t frames;
    size_t bytes;
} Sent;

/* The answer of session_response: the number that is answered, and the first count reads. Of a refusal all but the answer is 0. */
typedef struct {
    uint8_t answer;
    uint16_t number;
    uint8_t count;
    Item reads[REGISTER_OPERATIONS];
} Reply;

/* The answer of board_step and shard_step. Of a refusal all but the answer is 0. */
typedef struct {
    uint8_t answer;
    uint8_t frames;
    size_t bytes;
} Stepped;

/* ---- A client session */

/* Starts the session of a client, 0..15: next number 0, nothing outstanding. What the memory held before is not looked at.
 * Answers 0, or 11 for another client: the session is then empty, marked as not started. */
uint8_t session_start(Session *s, uint8_t client);

/* Takes the next number, makes it outstanding and sends Submit; ack is the smallest outstanding number, its own included.
 * Answers 0, or 11 (not started, or an out area under 68 bytes), 1 (the operation list), 10, 9. */
Sent session_invoke(Session *s, Operations operations, uint8_t *out, size_t out_length);

/* Sends Submit again with the kept operations and the present ack; the session stays as it is. When to do so is yours: there are no timers.
 * Answers 0, or 11 (not started, or an out area under 68 bytes), 7 (the number is not outstanding). */
Sent session_retry(Session *s, uint16_t number, uint8_t *out, size_t out_length);

/* Takes a Response: its number is outstanding no more, and the reads are handed over, by rising place.
 * Answers 0, or 11 (not started), 1, 2 (another kind, or another client's), 7 (the number is not outstanding), 8 (the places of the
 * reads are not those of the gets; the number stays outstanding). */
Reply session_response(Session *s, const uint8_t *frame, size_t frame_length);

/* ---- A board */

/* Starts board own, 1..n, of a chain of n boards, 2..8, over m shard groups, 1..8: an empty log, every floor 0, every queue empty.
 * What the memory held before is not looked at.
 * Answers 0, or 11 for a number out of range: the board is then empty, marked as not started. */
uint8_t board_start(Board *b, uint8_t n, uint8_t m, uint8_t own);

/* Lets the board take a frame. Board 1 takes Submit (and sends Forward, or Response for an entry that is EXE) and Executed (and sends
 * Response); boards 2..n-1 take Forward (and send it on, or Executed back) and Executed (and send it back); board n takes Forward (and
 * sends ShardAppend for each remaining shard, rising, or Executed back) and ExecNotif (and sends Executed when no shard remains).
 * Answers 0, or 11 (not started, or an out area under 68 bytes), 1, 2, and then Submit: 3, 4, 8, 5; Forward: 4, 8; ExecNotif and
 * Executed: 6, 7, 8. */
Stepped board_step(Board *b, const uint8_t *frame, size_t frame_length, uint8_t *out, size_t out_length);

/* ---- A shard group */

/* Starts shard group own, 1..m, of m, 1..8: no key present, ssn 0, last run none. What the memory held before is not looked at.
 * Answers 0, or 11 for a number out of range: the shard group is then empty, marked as not started. */
uint8_t shard_start(Shard *s, uint8_t m, uint8_t own);

/* Lets the shard group take a ShardAppend with sn = ssn + 1: its operations run in order, a get sees earlier puts of the same list, each
 * put stores the value and the log number; ssn and last run move, and ExecNotif with the reads goes to the tail.
 * Answers 0, or 11 (not started, or an out area under 68 bytes), 1, 2 (another kind, or another shard's), 7 (sn <= ssn), 4 (sn above
 * ssn + 1: a later copy of the frame serves), 8 (a key of another shard, or a log number not above the last one run). */
Stepped shard_step(Shard *s, const uint8_t *frame, size_t frame_length, uint8_t *out, size_t out_length);

#ifdef __cplusplus
}
#endif

#endif
