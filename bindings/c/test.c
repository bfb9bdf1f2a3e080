/* Random calls beside a plain model, and a refusal of each request for memory in turn.

   The model keeps the pending pairs in the order of acceptance, and looks through all of them.
   What is expected is the model's answer, never the library's own. */
#include "apc.h"

#include <inttypes.h>
#include <stdio.h>
#include <stdlib.h>
#include <string.h>

#define CHECK(holds)                                                                               \
    do {                                                                                           \
        if (!(holds)) {                                                                            \
            printf("line %d, call %ld: %s\n", __LINE__, calls, #holds);                            \
            exit(1);                                                                               \
        }                                                                                          \
    } while (0)

static long calls;

/* The memory functions: request number `refused` is refused, counted from 1; 0: none. */
static long requests, refused, blocks;

static struct apc_tried tried(void *at, bool is_new) {
    static char nothing;
    if (at != NULL && is_new)
        blocks++;
    return (struct apc_tried){at != NULL, at != NULL ? at : &nothing};
}

struct apc_tried rattle_alloc(size_t size, size_t alignment) {
    return tried(++requests == refused ? NULL : malloc(size != 0 ? size : alignment), true);
}

struct apc_tried rattle_realloc(void *at, size_t kept, size_t size, size_t alignment) {
    (void)kept;
    return tried(++requests == refused ? NULL : realloc(at, size != 0 ? size : alignment), false);
}

void rattle_dealloc(void *at) {
    blocks--;
    free(at);
}

/* The model. */
enum { MOST = 64 };

static struct {
    apc_pair pending[MOST];
    int count, held, capacity;
    bool is_closed, ends_when_done;
    size_t senders, receivers;
    struct {
        uint64_t ticket, waker;
    } room[MOST], message[MOST];
    int room_waiters, message_waiters;
    uint64_t next_ticket;
    uint64_t due[2 * MOST];
    int due_count;
} model;

static bool is_less(apc_priority one, apc_priority other) {
    return one.high != other.high ? one.high < other.high : one.low < other.low;
}

static bool is_same(apc_priority one, apc_priority other) {
    return one.high == other.high && one.low == other.low;
}

static void wake_room(void) {
    for (int at = 0; at < model.room_waiters; at++)
        model.due[model.due_count++] = model.room[at].waker;
    model.room_waiters = 0;
}

static void wake_message(void) {
    for (int at = 0; at < model.message_waiters; at++)
        model.due[model.due_count++] = model.message[at].waker;
    model.message_waiters = 0;
}

static void settle(void) {
    if (model.ends_when_done && model.count == 0 && model.held == 0)
        model.is_closed = true;
}

static void accept_pair(uint64_t message, apc_priority priority) {
    model.pending[model.count++] = (apc_pair){message, priority};
    wake_message();
}

static apc_pair take_at(int at) {
    apc_pair out = model.pending[at];
    model.count--;
    size_t after = sizeof(apc_pair) * (size_t)(model.count - at);
    memmove(&model.pending[at], &model.pending[at + 1], after);
    return out;
}

static int first_out(void) {
    int best = 0;
    for (int at = 1; at < model.count; at++)
        if (is_less(model.pending[best].priority, model.pending[at].priority))
            best = at;
    return best;
}

static int makes_room(void) {
    int least = 0;
    for (int at = 1; at < model.count; at++)
        if (!is_less(model.pending[least].priority, model.pending[at].priority))
            least = at;
    return least;
}

static int with_message(uint64_t message) {
    for (int at = 0; at < model.count; at++)
        if (model.pending[at].message == message)
            return at;
    return -1;
}

static uint32_t send_code(void) {
    if (model.is_closed)
        return APC_CLOSED;
    return model.count + model.held >= model.capacity ? APC_FULL : APC_DONE;
}

static uint32_t recv_code(void) {
    if (model.count > 0)
        return APC_DONE;
    return model.is_closed && model.held == 0 ? APC_CLOSED : APC_EMPTY;
}

static void shut(void) {
    model.is_closed = true;
    wake_room();
    wake_message();
}

static void unlist(bool has_ticket, uint64_t ticket) {
    for (int at = 0; has_ticket && at < model.room_waiters; at++)
        if (model.room[at].ticket == ticket) {
            model.room_waiters--;
            for (; at < model.room_waiters; at++)
                model.room[at] = model.room[at + 1];
        }
    for (int at = 0; has_ticket && at < model.message_waiters; at++)
        if (model.message[at].ticket == ticket) {
            model.message_waiters--;
            for (; at < model.message_waiters; at++)
                model.message[at] = model.message[at + 1];
        }
}

/* Random numbers: xorshift. */
static uint64_t seed = 88172645463325252u;

static uint64_t random_below(uint64_t limit) {
    seed ^= seed << 13;
    seed ^= seed >> 7;
    seed ^= seed << 17;
    return seed % limit;
}

static apc_priority random_priority(void) {
    return (apc_priority){random_below(3) == 0 ? UINT64_MAX - random_below(2) : random_below(3),
                          random_below(2) == 0 ? UINT64_MAX : random_below(2)};
}

static void check_pair(apc_reply reply, apc_pair wanted) {
    CHECK(reply.message == wanted.message && is_same(reply.priority, wanted.priority));
}

static int compare(const void *one, const void *other) {
    uint64_t left = *(const uint64_t *)one, right = *(const uint64_t *)other;
    return left < right ? -1 : left > right;
}

/* All wakers that the model names are handed over, each once, and until then calls are refused. */
static void check_due(apc_handle *channel, bool has_due) {
    CHECK(has_due == (model.due_count > 0));
    if (has_due) {
        CHECK(pc_try_recv(channel).code == APC_DUE);
        CHECK(pc_free(channel) == APC_DUE);
    }
    uint64_t got[2 * MOST];
    int count = 0;
    while (count < 2 * MOST && pc_next_due(channel, &got[count]))
        count++;
    CHECK(count == model.due_count);
    qsort(got, (size_t)count, sizeof *got, compare);
    qsort(model.due, (size_t)count, sizeof *got, compare);
    for (int at = 0; at < count; at++)
        CHECK(got[at] == model.due[at]);
    model.due_count = 0;
}

static void one_call(apc_handle *channel) {
    static uint64_t next_message;
    apc_reply reply = {0};
    apc_priority priority = random_priority();
    uint64_t message = next_message;
    uint32_t wanted;
    calls++;
    switch (random_below(25)) {
    case 0: case 1: case 2: case 3:
        next_message++;
        wanted = send_code();
        reply = pc_try_send(channel, message, priority);
        CHECK(reply.code == wanted);
        if (wanted == APC_DONE)
            accept_pair(message, priority);
        break;
    case 4:
        next_message++;
        wanted = send_code();
        reply = pc_try_send_evicting(channel, message, priority);
        if (wanted == APC_FULL && model.count > 0
            && is_less(model.pending[makes_room()].priority, priority)) {
            CHECK(reply.code == APC_DISPLACED);
            check_pair(reply, take_at(makes_room()));
            model.pending[model.count++] = (apc_pair){message, priority};
        } else {
            CHECK(reply.code == wanted);
            if (wanted == APC_DONE)
                accept_pair(message, priority);
        }
        break;
    case 5: case 6: case 7:
        wanted = recv_code();
        reply = pc_try_recv(channel);
        CHECK(reply.code == wanted);
        if (wanted == APC_DONE) {
            check_pair(reply, take_at(first_out()));
            wake_room();
            settle();
        }
        break;
    case 8:
        wanted = send_code();
        reply = pc_try_reserve(channel);
        CHECK(reply.code == wanted);
        model.held += wanted == APC_DONE;
        break;
    case 9:
        wanted = recv_code();
        reply = pc_try_lease(channel);
        CHECK(reply.code == wanted);
        if (wanted == APC_DONE) {
            check_pair(reply, take_at(first_out()));
            model.held++;
        }
        break;
    case 10: case 11:
        next_message++;
        reply = pc_put(channel, message, priority);
        CHECK(reply.code == (model.held > 0 ? APC_DONE : APC_NOTHING));
        if (model.held > 0) {
            model.held--;
            accept_pair(message, priority);
        }
        break;
    case 12: case 13:
        reply = pc_free_place(channel);
        CHECK(reply.code == (model.held > 0 ? APC_DONE : APC_NOTHING));
        if (model.held > 0) {
            bool is_last = model.held == 1
                && (model.is_closed || (model.ends_when_done && model.count == 0));
            model.held--;
            wake_room();
            if (is_last)
                wake_message();
            settle();
        }
        break;
    case 14: {
        uint64_t key = next_message - random_below(12);
        int at = with_message(key);
        reply = pc_take_message(channel, key);
        CHECK(reply.code == (at >= 0 ? APC_DONE : APC_NOTHING));
        if (at >= 0) {
            check_pair(reply, take_at(at));
            wake_room();
            settle();
        }
        break;
    }
    case 15: {
        int at = 0;
        while (at < model.count && !is_same(model.pending[at].priority, priority))
            at++;
        bool is_there = at < model.count;
        reply = pc_take_priority(channel, priority);
        CHECK(reply.code == (is_there ? APC_DONE : APC_NOTHING));
        if (is_there) {
            CHECK(is_same(reply.priority, priority));
            at = with_message(reply.message);
            CHECK(at >= 0 && is_same(model.pending[at].priority, priority));
            take_at(at);
            wake_room();
            settle();
        }
        break;
    }
    case 16: {
        uint64_t key = next_message - random_below(12);
        int at = with_message(key);
        reply = pc_change_priority(channel, key, priority);
        CHECK(reply.code == (at >= 0 ? APC_DONE : APC_NOTHING));
        if (at >= 0) {
            CHECK(is_same(reply.priority, model.pending[at].priority));
            model.pending[at].priority = priority;
        }
        break;
    }
    case 17: {
        uint64_t key = next_message - random_below(12);
        int at = with_message(key);
        wanted = recv_code() != APC_DONE ? recv_code() : at >= 0 ? APC_DONE : APC_NOTHING;
        reply = pc_lease_message(channel, key);
        CHECK(reply.code == wanted);
        if (wanted == APC_DONE) {
            check_pair(reply, take_at(at));
            model.held++;
        }
        break;
    }
    case 18: case 19: {
        apc_waiter waiter = {.waker = random_below(1000)};
        if (model.room_waiters > 0 && random_below(2) == 0) {
            waiter.has_ticket = true;
            waiter.ticket = model.room[0].ticket;
        }
        if (model.room_waiters == MOST)
            return;
        next_message++;
        wanted = send_code();
        reply = pc_poll_send(channel, message, priority, waiter);
        CHECK(reply.code == (wanted == APC_FULL ? APC_PENDING : wanted));
        if (wanted == APC_FULL && waiter.has_ticket) {
            CHECK(reply.ticket == waiter.ticket);
            model.room[0].waker = waiter.waker;
        } else if (wanted == APC_FULL) {
            CHECK(reply.ticket == model.next_ticket);
            model.room[model.room_waiters].ticket = model.next_ticket++;
            model.room[model.room_waiters++].waker = waiter.waker;
        } else {
            unlist(waiter.has_ticket, waiter.ticket);
            if (wanted == APC_DONE)
                accept_pair(message, priority);
        }
        break;
    }
    case 20: case 21: {
        apc_waiter waiter = {.waker = random_below(1000)};
        if (model.message_waiters == MOST)
            return;
        wanted = recv_code();
        reply = pc_poll_recv(channel, waiter);
        CHECK(reply.code == (wanted == APC_EMPTY ? APC_PENDING : wanted));
        if (wanted == APC_EMPTY) {
            CHECK(reply.ticket == model.next_ticket);
            model.message[model.message_waiters].ticket = model.next_ticket++;
            model.message[model.message_waiters++].waker = waiter.waker;
        } else if (wanted == APC_DONE) {
            check_pair(reply, take_at(first_out()));
            wake_room();
            settle();
        }
        break;
    }
    case 22: {
        apc_pair list[3];
        size_t count = random_below(4);
        for (size_t at = 0; at < count; at++)
            list[at] = (apc_pair){next_message++, random_priority()};
        uint64_t accepted = 77, room = (uint64_t)(model.capacity - model.count - model.held);
        wanted = send_code();
        uint64_t fits = wanted != APC_DONE ? 0 : count < room ? count : room;
        if (wanted == APC_DONE && fits < count)
            wanted = APC_FULL;
        reply = pc_try_send_many(channel, list, count, &accepted);
        CHECK(reply.code == wanted && accepted == fits);
        for (size_t at = 0; at < fits; at++)
            accept_pair(list[at].message, list[at].priority);
        break;
    }
    case 23: {
        uint64_t ticket = random_below(model.next_ticket + 1);
        reply = pc_give_up(channel, ticket);
        CHECK(reply.code == APC_DONE);
        unlist(true, ticket);
        break;
    }
    default:
        if (random_below(2) == 0) {
            reply = pc_clone_sender(channel);
            model.senders++;
        } else if (model.senders > 1) {
            reply = pc_drop_sender(channel);
            model.senders--;
        } else {
            break;
        }
        CHECK(reply.code == APC_DONE);
    }
    check_due(channel, reply.has_due);
    CHECK(pc_len(channel) == (uint64_t)model.count);
    CHECK(pc_held(channel) == (uint64_t)model.held);
    CHECK(pc_is_empty(channel) == (model.count == 0));
    CHECK(pc_is_full(channel) == (model.count + model.held == model.capacity));
    CHECK(pc_is_closed(channel) == model.is_closed);
    CHECK(pc_sender_count(channel) == model.senders);
    CHECK(pc_receiver_count(channel) == model.receivers);
    CHECK(pc_capacity(channel) == (uint64_t)model.capacity);
}

static void end(apc_handle *channel) {
    bool was_open = !model.is_closed;
    apc_reply reply = {0};
    switch (random_below(3)) {
    case 0:
        reply = pc_close(channel);
        CHECK(reply.code == (was_open ? APC_DONE : APC_NOTHING));
        if (was_open)
            shut();
        break;
    case 1:
        reply = pc_close_when_done(channel);
        CHECK(reply.code == APC_DONE);
        model.ends_when_done = true;
        if (model.count == 0 && model.held == 0)
            shut();
        break;
    default:
        reply = pc_drop_receiver(channel);
        CHECK(reply.code == APC_DONE);
        model.receivers = 0;
        shut();
        CHECK(pc_drop_receiver(channel).code == (reply.has_due ? APC_DUE : APC_NOTHING));
    }
    check_due(channel, reply.has_due);
}

static void open_channel(apc_handle *channel) {
    memset(&model, 0, sizeof model);
    model.capacity = 1 + (int)random_below(12);
    model.senders = model.receivers = 1;
    uint64_t capacity = (uint64_t)model.capacity;
    CHECK((random_below(2) == 0 ? pc_open_bounded(channel, capacity)
                                : pc_open_reserved(channel, capacity)) == APC_DONE);
}

static void random_scripts(void) {
    while (calls < 100000) {
        apc_handle channel = {0};
        open_channel(&channel);
        for (int left = 200; left > 0; left--)
            one_call(&channel);
        end(&channel);
        for (int left = 50; left > 0; left--)
            one_call(&channel);
        CHECK(pc_free(&channel) == APC_DONE && channel.at == NULL);
        CHECK(blocks == 0);
    }
}

/* One run with its request number `refused` refused: false once there are fewer requests. */
static bool refuse_one(void) {
    apc_handle channel = {0};
    requests = 0;
    uint32_t code = pc_open_unbounded(&channel);
    CHECK(code == APC_DONE || (code == APC_MEMORY && channel.at == NULL));
    uint64_t accepted = 0;
    for (uint64_t message = 0; code == APC_DONE && message < 100; message++) {
        uint32_t sent = pc_try_send(&channel, message, apc_unsigned(message)).code;
        CHECK(sent == APC_DONE || sent == APC_MEMORY);
        accepted += sent == APC_DONE;
        CHECK(pc_len(&channel) == accepted);
    }
    if (code == APC_DONE) {
        while (pc_try_recv(&channel).code == APC_DONE)
            accepted--;
        CHECK(accepted == 0);
        apc_reply polled = pc_poll_recv(&channel, (apc_waiter){.waker = 1});
        CHECK(polled.code == APC_PENDING || polled.code == APC_MEMORY);
        pc_close(&channel);
        uint64_t waker;
        CHECK(pc_next_due(&channel, &waker) == (polled.code == APC_PENDING));
        CHECK(pc_free(&channel) == APC_DONE);
    }
    CHECK(blocks == 0);
    return requests >= refused;
}

int main(void) {
    CHECK(pc_open_bounded(&(apc_handle){0}, 0) == APC_BAD_CAPACITY);
    CHECK(pc_open_reserved(&(apc_handle){0}, UINT64_C(1) << 63) == APC_BAD_CAPACITY);
    CHECK(is_less(apc_signed(-1), apc_signed(0)) && is_less(apc_signed(INT64_MIN), apc_signed(-1)));
    random_scripts();
    refused = 1;
    while (refuse_one())
        refused++;
    printf("%ld calls beside a model, %ld requests for memory refused in turn\n", calls,
           refused - 1);
    return 0;
}
