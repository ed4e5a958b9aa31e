/* juqhanep.h: one member of a group, in your own process. The library owns no socket, no clock and no thread: you give
 * it casts, sends, ticks and datagrams, one a call, and take what comes out of each, one output a call.
 *
 *     juq_t member = JUQ_NONE;
 *     juq_fault fault;
 *     uint8_t sentence[JUQ_LONGEST_SENTENCE], room[JUQ_LONGEST_DATAGRAM];
 *     juq_event event;
 *
 *     if (juq_open(&member, layers, length, true, 7, 1, 3, 0, &fault, sentence, sizeof sentence) != JUQ_OPENED) ..
 *     juq_cast(&member, "hi", 2);
 *     while (juq_next(&member, &event, room, sizeof room) == JUQ_TOLD) switch (event.kind) { .. }
 *     juq_close(&member);
 *
 * What the library does is proved where juq_version says "proved" (docs/LIBRARY-API.md). The proof asks this of you:
 *
 *   - a handle is JUQ_NONE at first; it stays where it is, isn't copied, and its fields are the library's;
 *   - one call at a time, all by one thread: a handle stays on the thread that opened it;
 *   - a pointer with a length is that many bytes, and no two arguments of a call overlap. With the length 0 the pointer
 *     may be anything but null.
 *
 * Nothing else: any call may be made at any time with any values. No call but juq_open takes memory from the heap, and
 * only juq_close gives it back. Handles share nothing.
 */
#ifndef JUQHANEP_H
#define JUQHANEP_H

#include <stdbool.h>
#include <stddef.h>
#include <stdint.h>

#ifdef __cplusplus
extern "C" {
#endif

#define JUQ_VERSION "0.1"

enum {
    JUQ_MOST_MEMBERS = 32,
    JUQ_LONGEST_BODY = 8192,
    JUQ_LONGEST_DATAGRAM = 8619, /* with a room of this size juq_next never answers JUQ_NO_ROOM */
    JUQ_LONGEST_SENTENCE = 64    /* no sentence is longer */
};

/* A member at work, or none: at first JUQ_NONE, all zero. */
typedef struct juq {
    bool full;
    void *at;
} juq_t;
#define JUQ_NONE { false, NULL }

/* ---- Opening -------------------------------------------------------------------------------------------------- */

/* What juq_open answers. Unless it is JUQ_OPENED the handle is as before. */
enum {
    JUQ_OPENED = 0,
    JUQ_HAS_ONE = 1,   /* the handle has a member: close it first */
    JUQ_NO_MEMBER = 2, /* members is not 1 to 32, or me is not below it */
    JUQ_REFUSED = 3,   /* the layer file is refused: see the fault */
    JUQ_TOO_LARGE = 4, /* a member of this group might keep over 8,192 rows with messages */
    JUQ_NO_MEMORY = 7
};

/* Why a layer file is refused: the first cause. */
enum {
    JUQ_FAULT_TOO_LARGE = 1, /* over 1,048,576 bytes */
    JUQ_FAULT_TOKEN,         /* no token begins here */
    JUQ_FAULT_UNEXPECTED,    /* the text stops being the beginning of a file here */
    JUQ_FAULT_UNKNOWN,       /* a name that isn't declared or visible */
    JUQ_FAULT_TWICE,         /* a name or a handler that is there already */
    JUQ_FAULT_LIMIT,         /* one more than a limit allows */
    JUQ_FAULT_KIND,          /* something of another kind than is needed */
    JUQ_FAULT_ARITY,         /* another number of arguments or names than is needed */
    JUQ_FAULT_DIRECTION,     /* a header where none may stand */
    JUQ_FAULT_HEADER,        /* a header that doesn't suit the message */
    JUQ_FAULT_INITIAL,       /* an initial value made of something that it may not be made of */
    JUQ_FAULT_CYCLE,         /* an event can follow from itself */
    JUQ_FAULT_WEIGHT,        /* too many tasks can follow from one event */
    JUQ_FAULT_JOINS          /* too many joins can follow from one event */
};

typedef struct juq_fault {
    uint32_t cause;
    uint32_t a;    /* the line; of a cycle the place, counted from 0; of a weight the weight */
    uint32_t b;    /* the column, in bytes; 0 where there is none */
    size_t length; /* how many bytes the sentence has */
} juq_fault;

/* Opens the member with the id `me`, below `members`, of the group whose members have the ids 0 to members - 1, in its
 * first view, of all of them. It runs the stack that the layer file means, by its bypasses or layer by layer; members of
 * either kind understand each other. All members of a group are opened with the same layers, group and stamp; datagrams
 * of another group or stamp are refused. A later group of the same members takes another stamp.
 *
 * With JUQ_REFUSED the fault is told, and `sentence` has the line that `stackc check` says of it, such as
 * "file: unknown 2:25", as far as it fits; it isn't ended by a zero. Else both are left as they were. */
uint32_t juq_open(juq_t *h, const uint8_t *layers, size_t length, bool bypass, uint32_t group, uint32_t stamp,
                  uint8_t members, uint8_t me, juq_fault *fault, uint8_t *sentence, size_t room);

/* Ends the member, and gives back its memory: JUQ_CLOSED_NOW, or JUQ_CLOSED where there is none. */
uint32_t juq_close(juq_t *h);

/* ---- Steps ---------------------------------------------------------------------------------------------------- */

/* What a step answers: it was taken; or why it was refused, and then the member is as before. In any case the outputs of
 * the step before that weren't taken are let go. */
enum {
    JUQ_TAKEN = 0,
    JUQ_TAKEN_COMMON = 1, /* taken, and common: its bypass makes it, in bypass mode */
    JUQ_CLOSED_NOW = 0,
    JUQ_CLOSED = 16,  /* the handle has no member */
    JUQ_OUT = 17,     /* the member is in no view any more */
    JUQ_TOO_BIG = 18, /* the body has over 8,192 bytes */
    /* The datagram is no packet for this member: the first of these causes. */
    JUQ_STRAY_SHORT = 32, /* it is shorter than a preamble */
    JUQ_STRAY_FORM,       /* it begins with no form of packets */
    JUQ_STRAY_GROUP,
    JUQ_STRAY_STAMP,
    JUQ_STRAY_VIEW,   /* it was sent in another view than the member is in */
    JUQ_STRAY_SENDER, /* by nobody else in the view */
    JUQ_STRAY_DEST,   /* to another member */
    JUQ_STRAY_PLAN,   /* its plan is missing, or none of this stack */
    JUQ_STRAY_CHAIN,  /* its headers are none of this stack */
    JUQ_STRAY_BODY    /* its body has over 8,192 bytes */
};

/* The application casts a body to the whole view. */
uint32_t juq_cast(juq_t *h, const uint8_t *body, size_t length);

/* It sends a body to the member of a rank: the how manieth of the view's ids, counted from 0, that is. */
uint32_t juq_send(juq_t *h, uint32_t rank, const uint8_t *body, size_t length);

/* It asks to leave the group. */
uint32_t juq_leave(juq_t *h);

/* The member's clock shows a moment. The unit is yours, the same for all members, and it matters to the library's layers:
 * `mnak` and `pt2pt` send again at a tick that comes `gap` units (100) after the last time, `suspect` pings each `every`
 * (100) and gives up a member that was silent for `after` (500), for good. With milliseconds write in the stack
 * `mnak(gap = 20); pt2pt(gap = 10);` and `suspect(every = 500, after = 5000)`, and tick each 10 ms: pt2pt sends one message
 * a gap again and drops what overtook it, so that while one is missing a member that sends more often falls behind, its
 * pings too; and a busy machine lets a process wait for a second now and then. Moments begin anywhere and should not fall. Tick at
 * regular moments, and at those that JUQ_EVENT_TIMER asks for: without ticks nothing is sent again, nobody is suspected. */
uint32_t juq_tick(juq_t *h, uint32_t moment);

/* A datagram came. Any bytes may be given. */
uint32_t juq_receive(juq_t *h, const uint8_t *datagram, size_t length);

/* ---- What came out -------------------------------------------------------------------------------------------- */

enum {
    JUQ_EVENT_CAST = 1, /* deliver to the application: a cast of the member of rank `peer`; its bytes */
    JUQ_EVENT_SEND,     /* deliver to the application: a send of the member of rank `peer`; its bytes */
    JUQ_EVENT_BLOCK,    /* the stack asks for silence before a view; a number of its own in `number` */
    JUQ_EVENT_ANNOUNCE, /* a next view is announced: in `to`, a bit for each rank of this view that will be in it */
    JUQ_EVENT_TIMER,    /* a tick is asked for at the moment `number` */
    JUQ_EVENT_DATAGRAM, /* send these bytes to each member whose id has its bit in `to`; in `plan` 1 more than the number
                           of the plan under which it is short, or 0 of a datagram in full */
    JUQ_EVENT_NOWHERE,  /* a send that had no other member to go to */
    JUQ_EVENT_QUIET,    /* an event left the stack that means nothing outside of it */
    JUQ_EVENT_VIEW,     /* last of a step: the member is now in the view of the ids in `to`, the `number`-th since its
                           first; members begin anew with rank and headers */
    JUQ_EVENT_OUT       /* last of a step: the member is in no view any more */
};

typedef struct juq_event {
    uint32_t kind;
    uint32_t peer;
    uint32_t to;
    uint32_t number;
    uint32_t plan;
    size_t length; /* how many bytes of the room are the event's, of a cast, a send and a datagram */
} juq_event;

/* What juq_next answers, or JUQ_CLOSED. */
enum {
    JUQ_NO_MORE = 0,
    JUQ_TOLD = 1,
    JUQ_NO_ROOM = 2 /* event->length bytes are needed; the room is as before, and the same output is told next */
};

/* Tells the next output of the last step, in order, and after the outputs where the member is since, if the step
 * installed a view. Fields that a kind doesn't name are 0. Bytes of the room behind the event's stay as they are. */
uint32_t juq_next(juq_t *h, juq_event *event, uint8_t *room, size_t size);

/* ---- What this is --------------------------------------------------------------------------------------------- */

/* Version, "proved" or "not proved", commit, and the kit with which it was made; ended by a zero. */
const char *juq_version(void);

#ifdef __cplusplus
}
#endif
#endif
