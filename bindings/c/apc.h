/* A channel in which the most urgent message comes out first: a proved core.

   The library keeps the queue, its limit, its close, the held places, the counts of handles
   and the lists of waiters. Messages and wakers are numbers of yours: keep the values yourself.

   One call at a time may work on a channel: put a lock round it. The library takes no lock, starts
   no thread and calls nothing of yours but the memory functions below.

   The functions `pc_` are to be called. Those with `apc_` are the library's own. They take an open
   handle by value and give it back through `out`, which must be all zero before. */
#ifndef APC_H
#define APC_H

#include <stdbool.h>
#include <stddef.h>
#include <stdint.h>

/* A channel; all zero: none. Do not copy it, and do not read or change what it leads to. */
typedef struct {
    void *at;
} apc_handle;

/* The greater `high` is the more urgent one; between equal ones `low` decides. */
typedef struct {
    uint64_t high, low;
} apc_priority;

typedef struct {
    uint64_t message;
    apc_priority priority;
} apc_pair;

static inline apc_priority apc_unsigned(uint64_t number) {
    return (apc_priority){number, 0};
}

static inline apc_priority apc_signed(int64_t number) {
    return (apc_priority){(uint64_t)number ^ UINT64_C(1) << 63, 0};
}

/* What a call came to. */
enum {
    APC_DONE = 0,
    APC_FULL = 1,         /* no room */
    APC_EMPTY = 2,        /* nothing is pending, but something may come */
    APC_CLOSED = 3,       /* nothing is accepted any more, or nothing will come */
    APC_MEMORY = 4,       /* memory was refused, or 2^64 - 1 pairs were accepted */
    APC_PENDING = 5,      /* you wait under the ticket of the reply */
    APC_DISPLACED = 6,    /* sent, and the pair of the reply was pushed out */
    APC_NOTHING = 7,      /* nothing there is of the kind that was asked for */
    APC_DUE = 8,          /* nothing was done: first fetch the wakers that are due */
    APC_BAD_CAPACITY = 9  /* 0, or 2^63 or more for a reserved channel */
};

typedef struct {
    uint32_t code;
    bool has_due;          /* wakers are due: fetch them by pc_next_due until that is false */
    uint64_t ticket;       /* at APC_PENDING */
    uint64_t message;      /* of a pair that comes to you */
    apc_priority priority; /* of that pair; after a change of priority, the one before */
} apc_reply;

/* Who polls: your number for what wakes you, and the ticket of the last poll if it was pending. */
typedef struct {
    uint64_t waker;
    bool has_ticket;
    uint64_t ticket;
} apc_waiter;

/* The memory functions that the library calls: link memory.c, or define them. Each block is aligned
   to 16 bytes, and one of 0 bytes is a block too. `at` is never null: if memory is refused, it is
   any other address. `rattle_realloc` keeps the first `kept` bytes; if it is refused, the block
   stays as it was. Besides, the library needs `memmove`. */
struct apc_tried {
    bool is_there;
    void *at;
};
struct apc_tried rattle_alloc(size_t size, size_t alignment);
struct apc_tried rattle_realloc(void *at, size_t kept, size_t size, size_t alignment);
void rattle_dealloc(void *at);

/* The library's own. */
uint32_t apc_open_bounded(apc_handle *out, uint64_t capacity);
uint32_t apc_open_reserved(apc_handle *out, uint64_t capacity);
uint32_t apc_open_unbounded(apc_handle *out);
uint32_t apc_free(apc_handle handle, apc_handle *out);
apc_reply apc_try_send(apc_handle, apc_handle *out, uint64_t message, apc_priority);
apc_reply apc_try_send_many(apc_handle, apc_handle *out, const apc_pair *, size_t count,
                            uint64_t *accepted);
apc_reply apc_try_send_evicting(apc_handle, apc_handle *out, uint64_t message, apc_priority);
apc_reply apc_try_recv(apc_handle, apc_handle *out);
apc_reply apc_poll_send(apc_handle, apc_handle *out, uint64_t message, apc_priority, apc_waiter);
apc_reply apc_poll_recv(apc_handle, apc_handle *out, apc_waiter);
apc_reply apc_give_up(apc_handle, apc_handle *out, uint64_t ticket);
apc_reply apc_try_reserve(apc_handle, apc_handle *out);
apc_reply apc_try_lease(apc_handle, apc_handle *out);
apc_reply apc_lease_message(apc_handle, apc_handle *out, uint64_t message);
apc_reply apc_put(apc_handle, apc_handle *out, uint64_t message, apc_priority);
apc_reply apc_free_place(apc_handle, apc_handle *out);
apc_reply apc_take_message(apc_handle, apc_handle *out, uint64_t message);
apc_reply apc_take_priority(apc_handle, apc_handle *out, apc_priority);
apc_reply apc_change_priority(apc_handle, apc_handle *out, uint64_t message, apc_priority);
apc_reply apc_close(apc_handle, apc_handle *out);
apc_reply apc_close_when_done(apc_handle, apc_handle *out);
apc_reply apc_clone_sender(apc_handle, apc_handle *out);
apc_reply apc_clone_receiver(apc_handle, apc_handle *out);
apc_reply apc_drop_sender(apc_handle, apc_handle *out);
apc_reply apc_drop_receiver(apc_handle, apc_handle *out);
bool apc_next_due(apc_handle, apc_handle *out, uint64_t *waker);
uint64_t apc_len(apc_handle, apc_handle *out);
uint64_t apc_held(apc_handle, apc_handle *out);
uint64_t apc_capacity(apc_handle, apc_handle *out);
bool apc_is_empty(apc_handle, apc_handle *out);
bool apc_is_full(apc_handle, apc_handle *out);
bool apc_is_closed(apc_handle, apc_handle *out);
size_t apc_sender_count(apc_handle, apc_handle *out);
size_t apc_receiver_count(apc_handle, apc_handle *out);

/* Defines pc_NAME, which takes an open channel by its address. */
#define APC_CALL(result, name, parameters, arguments)                                              \
    static inline result pc_##name parameters {                                                    \
        apc_handle open = *channel;                                                                \
        channel->at = NULL;                                                                        \
        return apc_##name arguments;                                                               \
    }

/* Opens a channel for at most `capacity` pending pairs, with one sender and one receiver, in a
   handle that is all zero: APC_DONE, APC_BAD_CAPACITY or APC_MEMORY. */
static inline uint32_t pc_open_bounded(apc_handle *channel, uint64_t capacity) {
    return apc_open_bounded(channel, capacity);
}
/* With memory for all of them now, so that no later send is refused for want of memory. */
static inline uint32_t pc_open_reserved(apc_handle *channel, uint64_t capacity) {
    return apc_open_reserved(channel, capacity);
}
/* Without a limit but memory. */
static inline uint32_t pc_open_unbounded(apc_handle *channel) {
    return apc_open_unbounded(channel);
}
/* Frees it, and leaves the handle all zero: APC_DONE, or APC_DUE and nothing was done. Nobody is
   woken: close the channel first. */
APC_CALL(uint32_t, free, (apc_handle *channel), (open, channel))

/* DONE, CLOSED, FULL or MEMORY. */
APC_CALL(apc_reply, try_send, (apc_handle *channel, uint64_t message, apc_priority priority),
         (open, channel, message, priority))
/* The same of many pairs, as far as there is room, in one step. `accepted` becomes how many were:
   all at DONE, else the first ones. `pairs` is not null. */
APC_CALL(apc_reply, try_send_many,
         (apc_handle *channel, const apc_pair *pairs, size_t count, uint64_t *accepted),
         (open, channel, pairs, count, accepted))
/* If the channel is full, the pair of least priority (the last of them) makes room for one of
   greater priority: DISPLACED. */
APC_CALL(apc_reply, try_send_evicting,
         (apc_handle *channel, uint64_t message, apc_priority priority),
         (open, channel, message, priority))
/* The most urgent pair, and among equals the first: DONE, EMPTY or CLOSED. */
APC_CALL(apc_reply, try_recv, (apc_handle *channel), (open, channel))

/* A try, and where it is FULL or EMPTY, a ticket: PENDING. You are listed until a call hands your
   waker out or you give up; then poll again, with that ticket. */
APC_CALL(apc_reply, poll_send,
         (apc_handle *channel, uint64_t message, apc_priority priority, apc_waiter waiter),
         (open, channel, message, priority, waiter))
APC_CALL(apc_reply, poll_recv, (apc_handle *channel, apc_waiter waiter), (open, channel, waiter))
APC_CALL(apc_reply, give_up, (apc_handle *channel, uint64_t ticket), (open, channel, ticket))
/* Fetches a waker that is due: false if none is. Wake it once your lock is free. */
APC_CALL(bool, next_due, (apc_handle *channel, uint64_t *waker), (open, channel, waker))

/* Holds a place for a pair that is still to come: DONE, CLOSED, FULL or MEMORY. */
APC_CALL(apc_reply, try_reserve, (apc_handle *channel), (open, channel))
/* Receives, and holds the place of the pair: as try_recv, or MEMORY. */
APC_CALL(apc_reply, try_lease, (apc_handle *channel), (open, channel))
/* The same of the pair with this message: NOTHING if others are pending. */
APC_CALL(apc_reply, lease_message, (apc_handle *channel, uint64_t message),
         (open, channel, message))
/* A pair goes into a held place, behind its equals, also in a closed channel. Takes no memory. */
APC_CALL(apc_reply, put, (apc_handle *channel, uint64_t message, apc_priority priority),
         (open, channel, message, priority))
/* A held place becomes room again. Either is NOTHING if no place is held. */
APC_CALL(apc_reply, free_place, (apc_handle *channel), (open, channel))

/* DONE with the pair, or NOTHING. Of several it is not specified which one is taken. */
APC_CALL(apc_reply, take_message, (apc_handle *channel, uint64_t message), (open, channel, message))
APC_CALL(apc_reply, take_priority, (apc_handle *channel, apc_priority priority),
         (open, channel, priority))
/* Of several it is the first that gets the new priority. It keeps its place among its equals. */
APC_CALL(apc_reply, change_priority, (apc_handle *channel, uint64_t message, apc_priority priority),
         (open, channel, message, priority))

/* DONE, or NOTHING if it was closed before. */
APC_CALL(apc_reply, close, (apc_handle *channel), (open, channel))
/* From now on it closes once nothing is pending and no place is held. */
APC_CALL(apc_reply, close_when_done, (apc_handle *channel), (open, channel))

/* Counts another one: DONE, or NOTHING where there are 2^63. */
APC_CALL(apc_reply, clone_sender, (apc_handle *channel), (open, channel))
APC_CALL(apc_reply, clone_receiver, (apc_handle *channel), (open, channel))
/* Counts one less; the last one closes the channel. NOTHING if there is none. */
APC_CALL(apc_reply, drop_sender, (apc_handle *channel), (open, channel))
APC_CALL(apc_reply, drop_receiver, (apc_handle *channel), (open, channel))

APC_CALL(uint64_t, len, (apc_handle *channel), (open, channel))
APC_CALL(uint64_t, held, (apc_handle *channel), (open, channel))
APC_CALL(uint64_t, capacity, (apc_handle *channel), (open, channel)) /* UINT64_MAX: no limit */
APC_CALL(bool, is_empty, (apc_handle *channel), (open, channel))
APC_CALL(bool, is_full, (apc_handle *channel), (open, channel))
APC_CALL(bool, is_closed, (apc_handle *channel), (open, channel))
APC_CALL(size_t, sender_count, (apc_handle *channel), (open, channel))
APC_CALL(size_t, receiver_count, (apc_handle *channel), (open, channel))

#endif
