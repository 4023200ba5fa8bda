// Two endpoints without a heap. Each sends 1000 packets, and each ACK acknowledges eight of them but one, which is
// lost. All memory of the library is a static array of 64 kB, whose blocks are used again.
#include "static_memory.h"
#include <inttypes.h>
#include <stdio.h>

enum { ROUNDS = 125, EACH = 8, MILLIS = 1000000 };

static const unsigned space = RECOVERY_SPACE_DATA;

static uint8_t begin(struct recovery_handle *sender, bool client, uint64_t now) {
    struct recovery_settings settings = recovery_ffi_default_settings();
    struct recovery_address remote = {.octets = {192, 0, 2, 1}, .port = 4433};
    return recovery_ffi_sender_established(sender, client, &settings, &remote, NULL, 0, now);
}

// Sends eight packets. The ACK lacks the first of them. Returns how many packets are declared lost.
static uint64_t round_trip(struct recovery_handle *sender, uint64_t now) {
    struct recovery_ack_frame frame = {.delay_secs = 0};
    struct recovery_ack_range range = {0, 0};
    for (uint64_t at = 0; at < EACH; at++) {
        uint64_t number = recovery_ffi_send(sender, space, now, 1000, true, false, 0, &at, 1).first;
        range.first = at == 1 ? number : range.first;
        range.last = number;
    }
    struct recovery_encoded_reply reply = recovery_ffi_sender_ack(sender, space, now + 50 * MILLIS, &frame, &range, 1);
    recovery_ffi_take_pending(sender, space);
    return reply.kind == RECOVERY_ANSWER_ACKNOWLEDGED ? reply.second : ROUNDS * EACH;
}

int main(void) {
    struct recovery_handle ends[2] = {{0}, {0}};
    uint64_t now = MILLIS, lost[2] = {0, 0};
    for (int at = 0; at < 2; at++) {
        if (begin(&ends[at], at == 0, now) != RECOVERY_NEW_MADE) {
            printf("the array is too small\n");
            return 1;
        }
    }
    for (int round = 0; round < ROUNDS; round++, now += 100 * MILLIS) {
        for (int at = 0; at < 2; at++) {
            lost[at] += round_trip(&ends[at], now);
        }
    }
    printf("%d packets each, of which %" PRIu64 " and %" PRIu64 " are lost\n", ROUNDS * EACH, lost[0], lost[1]);
    recovery_ffi_drop(&ends[0]);
    recovery_ffi_drop(&ends[1]);
    return 0;
}
