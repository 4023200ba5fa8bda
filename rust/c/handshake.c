// A server's connection from C: the handshake, ACKs, connection IDs, an MTU probe, and a client that moves to another
// address. The network and the keys are the stack's own, so the packets of the client are made up here.
#include "recovery_ffi.h"
#include <inttypes.h>
#include <stdio.h>

static const uint64_t ms = 1000000, peer_max_ack_delay = 20 * 1000000;

// Records a received datagram with one ack-eliciting packet. Its frames are processed only if the packet is new.
static bool receive(struct recovery_handle *server, unsigned space, uint64_t now, uint64_t number, uint64_t bytes) {
    recovery_ffi_datagram_in(server, false, bytes);
    struct recovery_encoded_reply received = recovery_ffi_received(server, space, now, number, true);
    if (received.kind == RECOVERY_ANSWER_NEW && recovery_new_arm(received)) {
        uint64_t delay = recovery_ffi_ids(server).max_ack_delay;
        recovery_ffi_set_timer(server, RECOVERY_TIMER_MAX_ACK_DELAY, space == RECOVERY_SPACE_DATA ? now + delay : now);
    }
    return received.kind == RECOVERY_ANSWER_NEW;
}

// Sends an ACK of all pending numbers of a space, in a packet that is not ack-eliciting.
static void acknowledge(struct recovery_handle *server, unsigned space, uint64_t now) {
    struct recovery_space_view view = recovery_ffi_space(server, space);
    printf("ACK, delayed by %" PRIu64 " ns:", recovery_ffi_ack_delay(server, space, now).nanos);
    for (uint64_t at = view.ranges; at > 0; at--) {
        struct recovery_range_view range = recovery_ffi_range(server, space, at - 1);
        printf(" %" PRIu64 " to %" PRIu64, range.start, range.end - 1);
    }
    printf("\n");
    if (recovery_ffi_sender_transmit(server, now, 50, space, false).kind == RECOVERY_ANSWER_TRANSMITTED) {
        recovery_ffi_send(server, space, now, 0, false, true, view.largest_received, NULL, 0);
        recovery_ffi_acks_sent(server, space);
        recovery_ffi_stop_timer(server, RECOVERY_TIMER_MAX_ACK_DELAY);
    }
}

// Sends a packet with one item, if the amplification limit, the window and the pacer permit its datagram.
static bool send(struct recovery_handle *server, unsigned space, uint64_t now, uint16_t size, uint64_t item) {
    struct recovery_encoded_reply goes = recovery_ffi_sender_transmit(server, now, size, space, true);
    if (goes.kind != RECOVERY_ANSWER_TRANSMITTED) {
        const char *why = goes.kind == RECOVERY_ANSWER_BLOCKED ? "blocked" : goes.kind == RECOVERY_ANSWER_FULL ? "full" : "delayed";
        printf("the datagram of item %" PRIu64 " waits: %s\n", item, why);
        return false;
    }
    return recovery_ffi_send(server, space, now, size, true, false, 0, &item, 1).kind == RECOVERY_ANSWER_SENT;
}

// Processes an ACK of the numbers from `first` to `last`.
static void acked(struct recovery_handle *server, unsigned space, uint64_t now, uint64_t first, uint64_t last) {
    struct recovery_ack_frame frame = {.delay_secs = 0};
    struct recovery_ack_range range = {first, last};
    struct recovery_encoded_reply reply = recovery_ffi_sender_ack(server, space, now, &frame, &range, 1);
    printf("%" PRIu64 " packets acknowledged, RTT %" PRIu64 " ns\n", recovery_acknowledged_count(reply), recovery_ffi_rtt(server).rtt);
}

// The handshake: the client's first datagram lets the server send three times its size (RFC 9000, 8.1).
static void handshake(struct recovery_handle *server) {
    receive(server, RECOVERY_SPACE_INITIAL, 0, 0, 1200);
    acknowledge(server, RECOVERY_SPACE_INITIAL, 0);
    send(server, RECOVERY_SPACE_INITIAL, 0, 1200, 1);
    send(server, RECOVERY_SPACE_HANDSHAKE, 0, 1200, 2);
    recovery_ffi_sender_handshake_keys(server);
    printf("%" PRIu64 " bytes are left of the limit\n", recovery_ffi_sender_view(server).amplification_room);
    send(server, RECOVERY_SPACE_HANDSHAKE, 0, 1200, 3);
    // A Handshake packet of the client shows that it receives at its address.
    receive(server, RECOVERY_SPACE_HANDSHAKE, 30 * ms, 0, 1200);
    recovery_ffi_validated(server, false);
    recovery_ffi_sender_discard(server, RECOVERY_SPACE_INITIAL, 30 * ms);
    send(server, RECOVERY_SPACE_HANDSHAKE, 30 * ms, 1200, 3);
    acked(server, RECOVERY_SPACE_HANDSHAKE, 60 * ms, 0, 1);
    // The client's transport parameters, and the end of the handshake.
    recovery_ffi_sender_peer_delay(server, 0, peer_max_ack_delay);
    recovery_ffi_peer_limit(server, 1400);
    recovery_ffi_sender_handshake_confirmed(server);
    recovery_ffi_sender_discard(server, RECOVERY_SPACE_HANDSHAKE, 60 * ms);
}

// Connection IDs of both endpoints (RFC 9000, 5.1).
static void connection_ids(struct recovery_handle *server) {
    struct recovery_id ours[2] = {{.sequence = 1, .bytes = {1}, .len = 8}, {.sequence = 2, .bytes = {2}, .len = 8}};
    recovery_ffi_issue_ids(server, 60 * ms, ours, 2);
    uint8_t theirs[8] = {9}, token[16] = {7};
    recovery_ffi_new_id(server, 1, 0, theirs, sizeof theirs, token);
    struct recovery_encoded_reply retired = recovery_ffi_next_id(server);
    if (recovery_retire_some(retired)) {
        printf("retire the IDs from %" PRIu64 ", use %" PRIu64 "\n", recovery_retire_start(retired), recovery_ffi_active_id(server));
    }
    struct recovery_encoded_reply more = recovery_ffi_peer_retired(server, 0, 3);
    printf("another ID may be issued: %d\n", recovery_flag_value(more));
}

// One MTU probe, which is acknowledged (RFC 9000, 14.3).
static void probe_mtu(struct recovery_handle *server) {
    struct recovery_encoded_reply probe = recovery_ffi_poll_mtu(server, 60 * ms);
    if (probe.kind == RECOVERY_ANSWER_PROBE) {
        // The packet with this number is padded to a datagram of this size.
        printf("probe of %u bytes\n", recovery_probe_size(probe));
        recovery_ffi_sender_transmit(server, 60 * ms, recovery_probe_size(probe), RECOVERY_SPACE_DATA, false);
        acked(server, RECOVERY_SPACE_DATA, 90 * ms, recovery_probe_number(probe), recovery_probe_number(probe));
    }
    printf("MTU %u\n", recovery_ffi_path(server, false).mtu);
}

// 1-RTT packets, one after the other, as far as the window and the pacer permit.
static void transfer(struct recovery_handle *server, uint64_t now) {
    uint64_t item = 4;
    while (send(server, RECOVERY_SPACE_DATA, now, 1200, item)) {
        item++;
    }
    struct recovery_window_view window = recovery_ffi_window(server);
    printf("%" PRIu64 " of %" PRIu64 " bytes are in flight; the pacer permits %" PRIu64 "\n", window.in_flight, window.window,
           recovery_ffi_pacer_room(server, now));
    struct recovery_encoded_reply next = recovery_ffi_next_timeout(server);
    printf("a timer runs: %d\n", recovery_timeout_some(next));
}

// The client moves to another address: the new path is challenged, and then the old one is dropped (RFC 9000, 9).
static void migrate(struct recovery_handle *server, uint64_t now) {
    struct recovery_address moved = {.octets = {198, 51, 100, 7}, .port = 4433};
    uint64_t before = recovery_ffi_rtt(server).pto_base;
    recovery_ffi_new_path(server, now, &moved, true);
    recovery_ffi_datagram_in(server, false, 1200);
    recovery_ffi_sender_challenge(server, 0x0123456789abcdef, true, true);
    // Three PTOs, the larger of both paths' (RFC 9000, 8.2.4).
    uint64_t after = recovery_ffi_rtt(server).pto_base, base = after > before ? after : before;
    recovery_ffi_set_timer(server, RECOVERY_TIMER_PATH_VALIDATION, now + 3 * (base + peer_max_ack_delay));
    send(server, RECOVERY_SPACE_DATA, now, 1200, 20);
    // The PATH_RESPONSE frame: the address is validated.
    recovery_ffi_sender_challenge(server, 0, false, false);
    recovery_ffi_validated(server, false);
    recovery_ffi_stop_timer(server, RECOVERY_TIMER_PATH_VALIDATION);
    struct recovery_encoded_reply old = recovery_ffi_in_flight(server, true);
    printf("in flight on the old path: %" PRIu64 " bytes\n", recovery_in_flight_bytes(old));
    recovery_ffi_drop_previous(server);
}

int main(void) {
    struct recovery_handle server = {0};
    struct recovery_settings settings = recovery_ffi_default_settings();
    struct recovery_address client = {.octets = {192, 0, 2, 1}, .port = 4433};
    uint8_t id[8] = {255, 255, 255, 255, 255, 255, 255, 255};
    uint8_t code = recovery_ffi_sender_new(&server, false, &settings, &client, id, sizeof id, 0);
    if (code != RECOVERY_OK) {
        printf("no sender was made: %s\n", recovery_ffi_new_text(code));
        return 1;
    }
    handshake(&server);
    connection_ids(&server);
    probe_mtu(&server);
    transfer(&server, 100 * ms);
    receive(&server, RECOVERY_SPACE_DATA, 110 * ms, 0, 1200);
    if (!receive(&server, RECOVERY_SPACE_DATA, 111 * ms, 0, 1200)) {
        printf("the packet is a duplicate: drop it\n");
    }
    if (recovery_ffi_timer(&server, RECOVERY_TIMER_MAX_ACK_DELAY).some) {
        recovery_ffi_ack_delay_timeout(&server, RECOVERY_SPACE_DATA);
        acknowledge(&server, RECOVERY_SPACE_DATA, 135 * ms);
    }
    migrate(&server, 140 * ms);
    recovery_ffi_drop(&server);
    return 0;
}
