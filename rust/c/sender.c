// A sender from C. Four packets are sent, and the last one is acknowledged. The others are lost: the first by its
// number, two by their age (RFC 9002, 6.1), and their items are taken for retransmission. No ACK is received for a
// fifth packet: two probes are sent, and the first carries its items (RFC 9002, 6.2.4). In the end all packets are
// declared lost (RFC 9002, 6.4).
#include "recovery_ffi.h"
#include <inttypes.h>
#include <stdio.h>

static const unsigned space = RECOVERY_SPACE_DATA;

static void numbers(struct recovery_handle *sender, const char *what, bool lost) {
    uint64_t out[8];
    size_t count = recovery_ffi_told_numbers(sender, lost, out, 8);
    printf(" %s", what);
    for (size_t at = 0; at < count && count <= 8; at++) {
        printf(" %" PRIu64, out[at]);
    }
}

// Prints the packets that were acknowledged, each with its items.
static void packets(struct recovery_handle *sender) {
    uint64_t out[16];
    size_t count = recovery_ffi_told_packets(sender, out, 16);
    for (size_t at = 0; at < count && count <= 16; at += 2 + out[at + 1]) {
        printf(" %" PRIu64 " with %" PRIu64, out[at], out[at + 1]);
        for (size_t item = 0; item < out[at + 1]; item++) {
            printf(": %" PRIu64, out[at + 2 + item]);
        }
    }
}

static void timer(struct recovery_handle *sender) {
    struct recovery_time_view time = recovery_ffi_timer(sender, RECOVERY_TIMER_LOSS_DETECTION);
    if (time.some) {
        printf(", timer %" PRIu64 "\n", time.nanos);
    } else {
        printf(", no timer\n");
    }
}

static void tell(struct recovery_handle *sender, struct recovery_encoded_reply reply) {
    printf("%u:", reply.kind);
    if (reply.kind == RECOVERY_ANSWER_ACKNOWLEDGED || reply.kind == RECOVERY_ANSWER_LOSSES) {
        struct recovery_outcome_view told = recovery_ffi_last_outcome(sender);
        numbers(sender, "acked", false);
        packets(sender);
        numbers(sender, "lost", true);
        printf(" of %" PRIu64 " bytes%s", told.has_congestion ? told.congestion : 0, told.is_cut ? ", and not all" : "");
    }
    timer(sender);
}

// Handles the timer, which expires at this time. Checks the datagram of each probe, takes its contents, and sends it.
static void probe(struct recovery_handle *sender, uint64_t now) {
    struct recovery_encoded_reply due = recovery_ffi_sender_on_timeout(sender, now);
    if (due.kind != RECOVERY_ANSWER_PROBES) {
        printf("no probe is due\n");
        return;
    }
    printf("%" PRIu64 " probes are due in space %" PRIu64 "\n", due.second, due.first);
    for (uint64_t at = 0; at < due.second; at++) {
        unsigned goes = recovery_ffi_sender_transmit(sender, now, 1000, due.first, true).kind;
        if (goes != RECOVERY_ANSWER_TRANSMITTED || recovery_ffi_sender_probe(sender, due.first, false).kind != RECOVERY_ANSWER_QUEUE) {
            printf("no probe goes out\n");
            return;
        }
        uint64_t taken[8];
        size_t count = recovery_ffi_last_items(sender, taken, 8);
        printf("a probe with %zu items, ", count);
        tell(sender, recovery_ffi_send(sender, due.first, now, 1000, true, false, 0, taken, count));
    }
}

int main(void) {
    struct recovery_handle sender = {0};
    struct recovery_settings settings = recovery_ffi_default_settings();
    struct recovery_address remote = {.octets = {192, 0, 2, 1}, .port = 4433};
    uint8_t id[8] = {255, 255, 255, 255, 255, 255, 255, 255};
    if (recovery_ffi_sender_established(&sender, false, &settings, &remote, id, sizeof id, 1000) != RECOVERY_NEW_MADE) {
        printf("no sender was made\n");
        return 1;
    }
    for (uint64_t number = 0; number < 4; number++) {
        uint64_t item = number + 1, now = item * 1000000;
        tell(&sender, recovery_ffi_send(&sender, space, now, 1000, true, false, 0, &item, 1));
    }
    // With a smaller initial RTT the timer expires sooner (RFC 9002, 6.2.2).
    tell(&sender, recovery_ffi_sender_initial_rtt(&sender, 0, 100000000));
    struct recovery_sender_view view = recovery_ffi_sender_view(&sender);
    struct recovery_number_view smallest = recovery_ffi_smallest_tracked(&sender, space);
    printf("the timer awaits %u in space %u, %" PRIu64 " bytes fit into the window, %s limit, from number %" PRIu64 "\n", view.awaits,
           view.space, view.window_room, view.is_limited ? "a" : "no", smallest.number);
    struct recovery_ack_frame frame = {.delay_secs = 0};
    struct recovery_ack_range ranges[1] = {{.first = 3, .last = 3}};
    frame.is_limited = true;
    frame.packets_room = 2;
    struct recovery_encoded_reply needed = recovery_ffi_sender_ack(&sender, space, 104000000, &frame, ranges, 1);
    if (needed.kind == RECOVERY_ANSWER_NEEDS_ROOM) {
        printf("room is needed for %" PRIu64 " words and %" PRIu64 " numbers\n", needed.first, needed.second);
        frame.packets_room = needed.first;
        frame.lost_room = needed.second;
    }
    tell(&sender, recovery_ffi_sender_ack(&sender, space, 104000000, &frame, ranges, 1));
    printf("%" PRIu64 " packets are tracked\n", recovery_ffi_tracked(&sender, space).packets);
    tell(&sender, recovery_ffi_sender_on_timeout(&sender, 114499999));
    tell(&sender, recovery_ffi_sender_on_timeout(&sender, 114500000));
    tell(&sender, recovery_ffi_sender_on_timeout(&sender, 115500000));
    if (recovery_ffi_take_pending(&sender, space).kind == RECOVERY_ANSWER_QUEUE) {
        uint64_t taken[8];
        size_t count = recovery_ffi_last_items(&sender, taken, 8);
        printf("%zu items to be sent again: %" PRIu64 ", %" PRIu64 " and %" PRIu64 "\n", count, taken[0], taken[1], taken[2]);
    }
    uint64_t item = 5;
    tell(&sender, recovery_ffi_send(&sender, space, 120000000, 1000, true, false, 0, &item, 1));
    probe(&sender, 445000000);
    tell(&sender, recovery_ffi_sender_retransmit_all(&sender, space, 446000000));
    recovery_ffi_drop(&sender);
    return 0;
}
