/* Three jobs in a channel for two, by their urgency. */
#include "apc.h"

#include <inttypes.h>
#include <stdio.h>

static const char *jobs[] = {"tidy up", "put out the fire", "sweep the floor"};

int main(void) {
    apc_handle channel = {0};
    if (pc_open_bounded(&channel, 2) != APC_DONE)
        return 1;

    /* Nothing is there yet: this waiter, number 77, is listed. */
    apc_reply reply = pc_poll_recv(&channel, (apc_waiter){.waker = 77});
    printf("waits: %d\n", reply.code == APC_PENDING);

    const int64_t urgency[] = {1, 9, -3};
    for (uint64_t job = 0; job < 3; job++) {
        reply = pc_try_send(&channel, job, apc_signed(urgency[job]));
        printf("%s: %s\n", jobs[job], reply.code == APC_DONE ? "sent" : "no room");
        uint64_t waker;
        while (pc_next_due(&channel, &waker))
            printf("wake %" PRIu64 "\n", waker);
    }

    pc_close(&channel);
    while ((reply = pc_try_recv(&channel)).code == APC_DONE)
        printf("do: %s\n", jobs[reply.message]);
    printf("closed: %d\n", reply.code == APC_CLOSED);
    return pc_free(&channel) != APC_DONE;
}
