// Invalid calls from C: each fails with an error number, and changes nothing. Failed checks are printed and counted.
#include "recovery_ffi.h"
#include <stdio.h>
#include <string.h>

static int wrong = 0;

static void expect(const char *what, bool holds) {
    if (!holds) {
        printf("not so: %s\n", what);
        wrong++;
    }
}

static void refused(const char *what, struct recovery_encoded_reply reply, unsigned refusal) {
    expect(what, reply.kind == RECOVERY_ANSWER_REFUSED && reply.refusal == refusal);
}

static const struct recovery_address remote = {.octets = {192, 0, 2, 1}, .port = 4433};
static const uint8_t id[21] = {1};

static unsigned made(struct recovery_handle *handle, struct recovery_settings settings, size_t len) {
    return recovery_ffi_new(handle, &settings, &remote, id, len, 0);
}

// Spaces, timers, numbers, durations and connection IDs that are out of range.
static void arguments(struct recovery_handle *recovery) {
    const unsigned bad = RECOVERY_REFUSAL_BAD_ARGUMENT;
    refused("a packet goes out in space 7", recovery_ffi_send(recovery, 7, 0, 100, true, false, 0, NULL, 0), bad);
    refused("a packet comes in space 3", recovery_ffi_received(recovery, 3, 0, 0, true), bad);
    refused("space 255 is discarded", recovery_ffi_discard(recovery, 255), bad);
    refused("timer 9 is set", recovery_ffi_set_timer(recovery, 9, 5), bad);
    refused("timer 200 is stopped", recovery_ffi_stop_timer(recovery, 200), bad);
    refused("a number of 2^63 in a frame", recovery_ffi_ack_frequency(recovery, 1ull << 63, 1, 5000, 1), bad);
    refused("a span of 10^9 nanoseconds", recovery_ffi_sample(recovery, 0, 0, 0, 1000000000), bad);
    refused("an id of 21 bytes", recovery_ffi_initial_id(recovery, id, 21), bad);
    refused("an MTU of zero", recovery_ffi_mtu_found(recovery, 0), RECOVERY_REFUSAL_ZERO_MTU);
    refused("an MTU, with discovery", recovery_ffi_mtu_found(recovery, 1400), RECOVERY_REFUSAL_SEARCHING);
    struct recovery_id issued = {.sequence = 1, .len = 21};
    refused("an id of 21 bytes is issued", recovery_ffi_issue_ids(recovery, 0, &issued, 1), bad);
    expect("timer 200 is not set", !recovery_ffi_timer(recovery, 200).some);
    expect("no timer is set", !recovery_ffi_next_timeout(recovery).flag);
    expect("there is no space 7", !recovery_ffi_space(recovery, 7).lives && !recovery_ffi_range(recovery, 7, 0).some);
    expect("nothing came in space 7", !recovery_ffi_ack_delay(recovery, 7, 1).some);
    struct recovery_marks marks = {.has_first = true, .first_space = 3};
    expect("no marks with space 3", !recovery_ffi_set_marks(recovery, false, &marks));
    expect("no marks of no path", !recovery_ffi_set_marks(recovery, true, &(struct recovery_marks){0}));
}

// Settings of which no recovery is made, each with its error number.
static void settings(void) {
    const struct recovery_settings sound = recovery_ffi_default_settings();
    struct recovery_settings zero = {0}, mtu = sound, factor = sound, window = sound, skip = sound, many = sound;
    struct recovery_settings controller = sound, skips = sound, fraction = sound;
    mtu.min_mtu = 0;
    factor.loss_denominator = 0;
    fraction.time_denominator = 0;
    window.initial_window = 0;
    skip.first_skip = 64;
    many.issued = (1ull << 62) + 1;
    controller.controller = 3;
    skips.skips = 3;
    struct recovery_handle none = {0};
    expect("all zeros", made(&none, zero, 8) == RECOVERY_NEW_ZERO_MTU);
    expect("an MTU of zero", made(&none, mtu, 8) == RECOVERY_NEW_ZERO_MTU);
    expect("a denominator of zero", made(&none, factor, 8) == RECOVERY_NEW_ZERO_DENOMINATOR);
    expect("a time threshold over zero", made(&none, fraction, 8) == RECOVERY_NEW_ZERO_DENOMINATOR);
    expect("a window of zero", made(&none, window, 8) == RECOVERY_NEW_ZERO_WINDOW);
    expect("a first skip of 64", made(&none, skip, 8) == RECOVERY_NEW_SKIP_TOO_LARGE);
    expect("too many ids", made(&none, many, 8) == RECOVERY_NEW_TOO_MANY_ISSUED);
    expect("controller 3", made(&none, controller, 8) == RECOVERY_NEW_UNKNOWN_CONTROLLER);
    expect("skips 3", made(&none, skips, 8) == RECOVERY_NEW_UNKNOWN_SKIPS);
    expect("an id of 21 bytes", made(&none, sound, 21) == RECOVERY_NEW_CID_TOO_LONG);
    expect("nothing is held then", none.ptr == NULL);
}

// A handle that holds no recovery: none was made, or it was freed.
static void nothing(struct recovery_handle *none) {
    refused("an event", recovery_ffi_congestion(none, 2, 1, false, 1), RECOVERY_REFUSAL_NO_RECOVERY);
    refused("a question", recovery_ffi_next_timeout(none), RECOVERY_REFUSAL_NO_RECOVERY);
    uint64_t item = 7, out[1] = {9};
    refused("items", recovery_ffi_send(none, 2, 0, 1, true, false, 0, &item, 1), RECOVERY_REFUSAL_NO_RECOVERY);
    expect("no path", !recovery_ffi_path(none, false).lives && !recovery_ffi_marks(none, false).lives);
    expect("no space", !recovery_ffi_space(none, RECOVERY_SPACE_DATA).lives);
    expect("no timer", !recovery_ffi_timer(none, 0).some && !recovery_ffi_next_id_timeout(none).some);
    expect("no ids", recovery_ffi_ids(none).issued == 0);
    expect("nothing was taken", recovery_ffi_last_items(none, out, 1) == 0 && out[0] == 9);
    struct recovery_tracked_view tracked = recovery_ffi_tracked(none, RECOVERY_SPACE_DATA);
    expect("nothing is tracked", tracked.packets == 0 && !tracked.has_loss_time);
    uint8_t token[16] = {1}, zeros[16] = {0};
    expect("no token", !recovery_ffi_is_token(none, zeros));
    recovery_ffi_token(none, token);
    expect("zeros for a token", memcmp(token, zeros, 16) == 0);
    recovery_ffi_drop(none);
}

// Calls of a sender on a bare recovery, and events that only the sender itself makes.
static void senders(struct recovery_handle *alone) {
    const unsigned none = RECOVERY_REFUSAL_NO_SENDER, bad = RECOVERY_REFUSAL_BAD_ARGUMENT;
    const struct recovery_ack_frame frame = {0}, slow = {.delay_nanos = 1000000000};
    const struct recovery_ack_range range = {.first = 0, .last = 0};
    refused("a datagram", recovery_ffi_sender_transmit(alone, 0, 1200, 2, true), none);
    refused("an ACK", recovery_ffi_sender_ack(alone, 2, 0, &frame, &range, 1), none);
    refused("a timeout", recovery_ffi_sender_on_timeout(alone, 0), none);
    refused("a probe", recovery_ffi_sender_probe(alone, 2, false), none);
    refused("a discarded space", recovery_ffi_sender_discard(alone, 0, 0), none);
    refused("all packets of a space", recovery_ffi_sender_retransmit_all(alone, 0, 0), none);
    refused("keys", recovery_ffi_sender_handshake_keys(alone), none);
    refused("a delay", recovery_ffi_sender_peer_delay(alone, 1, 0), none);
    expect("no probe timeout", recovery_ffi_pto_count(alone) == 0);
    expect("nothing was told", recovery_ffi_last_outcome(alone).acked == 0 && recovery_ffi_told_numbers(alone, true, NULL, 0) == 0);
    struct recovery_handle sender = {0};
    struct recovery_settings settings = recovery_ffi_default_settings();
    expect("a sender is made", recovery_ffi_sender_new(&sender, true, &settings, &remote, id, 8, 0) == RECOVERY_NEW_MADE);
    expect("none is made over it", recovery_ffi_sender_new(&sender, true, &settings, &remote, id, 8, 0) == RECOVERY_NEW_HELD);
    refused("an event around it", recovery_ffi_lost(&sender, 2, 0), RECOVERY_REFUSAL_DECIDED);
    refused("its timer", recovery_ffi_set_timer(&sender, RECOVERY_TIMER_LOSS_DETECTION, 5), RECOVERY_REFUSAL_DECIDED);
    refused("a number that was not sent", recovery_ffi_sender_ack(&sender, 2, 0, &frame, &range, 1), RECOVERY_REFUSAL_UNSENT);
    refused("no range", recovery_ffi_sender_ack(&sender, 2, 0, &frame, NULL, 0), RECOVERY_REFUSAL_BAD_RANGE);
    refused("a delay of 10^9 nanoseconds", recovery_ffi_sender_ack(&sender, 2, 0, &slow, &range, 1), bad);
    refused("such a delay of the peer", recovery_ffi_sender_peer_delay(&sender, 0, 1000000000), bad);
    refused("an ACK in space 3", recovery_ffi_sender_ack(&sender, 3, 0, &frame, &range, 1), bad);
    refused("a datagram in space 3", recovery_ffi_sender_transmit(&sender, 0, 1200, 3, true), bad);
    refused("a probe in space 3", recovery_ffi_sender_probe(&sender, 3, false), bad);
    struct recovery_marks marks = {0};
    expect("no marks around it", !recovery_ffi_set_marks(&sender, false, &marks));
    expect("the marks stay", recovery_ffi_marks(&sender, false).sending_ecn);
    recovery_ffi_drop(&sender);
    refused("a probe of none", recovery_ffi_sender_probe(&sender, 2, false), RECOVERY_REFUSAL_NO_RECOVERY);
    expect("an established one is made",
           recovery_ffi_sender_established(&sender, true, &settings, &remote, id, 8, 0) == RECOVERY_NEW_MADE);
    refused("a probe in a space that ended", recovery_ffi_sender_probe(&sender, 0, false), RECOVERY_REFUSAL_SPACE_DISCARDED);
    recovery_ffi_drop(&sender);
    refused("a datagram of none", recovery_ffi_sender_transmit(&sender, 0, 1200, 2, true), RECOVERY_REFUSAL_NO_RECOVERY);
}

static bool says(const char *text, const char *wanted) {
    return strcmp(text, wanted) == 0;
}

// No error is 0, and each error has a text.
static void texts(void) {
    expect("no error is 0", RECOVERY_OK == 0 && RECOVERY_NEW_MADE == 0 && RECOVERY_NEW_NO_MEMORY != 0);
    expect("it has a text", says(recovery_ffi_text(RECOVERY_OK), "no error"));
    expect("no memory", says(recovery_ffi_text(RECOVERY_REFUSAL_NO_MEMORY), "out of memory"));
    expect("not tracked", says(recovery_ffi_text(RECOVERY_REFUSAL_NOT_TRACKED), "the packet is not tracked"));
    expect("no recovery", says(recovery_ffi_text(RECOVERY_REFUSAL_NO_RECOVERY), "the handle holds no recovery"));
    expect("a fault", says(recovery_ffi_fault_text(RECOVERY_FAULT_BLEACHED), "ECN bleaching"));
    expect("a window of zero", says(recovery_ffi_new_text(RECOVERY_NEW_ZERO_WINDOW), "the initial window is zero"));
    const char *unknown = recovery_ffi_text(200);
    expect("another number", says(unknown, recovery_ffi_new_text(200)) && says(unknown, recovery_ffi_fault_text(200)));
    for (unsigned refusal = RECOVERY_REFUSAL_NO_MEMORY; refusal <= RECOVERY_REFUSAL_CONFLICT; refusal++) {
        expect("an error of events has a text", !says(recovery_ffi_text((uint8_t)refusal), unknown));
    }
}

int main(void) {
    struct recovery_handle recovery = {0};
    nothing(&recovery);
    texts();
    settings();
    expect("one is made", made(&recovery, recovery_ffi_default_settings(), 8) == RECOVERY_NEW_MADE);
    expect("none is made over it", made(&recovery, recovery_ffi_default_settings(), 8) == RECOVERY_NEW_HELD);
    arguments(&recovery);
    senders(&recovery);
    struct recovery_encoded_reply sent = recovery_ffi_send(&recovery, RECOVERY_SPACE_DATA, 0, 100, true, false, 0, NULL, 0);
    expect("the first packet goes out after all that", sent.kind == RECOVERY_ANSWER_SENT && sent.first == 0);
    recovery_ffi_drop(&recovery);
    expect("nothing is held then", recovery.ptr == NULL);
    nothing(&recovery);
    printf("%d wrong\n", wrong);
    return wrong > 0;
}
