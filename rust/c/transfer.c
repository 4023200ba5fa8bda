// A transfer from C: numbered items are sent over a simulated link that loses 0 to 30 percent of the datagrams, both
// ways. The stack checks each datagram, retransmits lost items, and sends both probes of a timeout with their contents
// (RFC 9002, 6.2.4).
#include "recovery_ffi.h"
#include <inttypes.h>
#include <stdio.h>
#include <string.h>

enum { ITEMS = 200, MOST = 4096, EACH = 4, RANGES = 32, SIZE = 1200, DELAY = 10000000, STEPS = 100000 };

static const unsigned space = RECOVERY_SPACE_DATA;

struct packet {
    uint64_t arrives, number;
};

struct ack {
    uint64_t arrives;
    struct recovery_ack_range ranges[RANGES];
    size_t count;
};

// Both endpoints, the link between them, and the items to be sent.
struct link {
    struct recovery_handle sender;
    uint64_t now, wakes, dice, percent;
    struct packet packets[MOST];
    size_t packets_from, packets_to;
    struct ack acks[MOST];
    size_t acks_from, acks_to;
    uint64_t waiting[MOST];
    size_t waiting_from, waiting_to;
    bool received[MOST], acked[ITEMS];
    size_t left;
};

static struct link ends;

static bool is_lost(struct link *it) {
    it->dice = it->dice * 6364136223846793005u + 1442695040888963407u;
    return (it->dice >> 33) % 100 < it->percent;
}

static void is_to_send(struct link *it, const uint64_t *items, size_t count) {
    for (size_t at = 0; at < count; at++) {
        it->waiting[it->waiting_to++ % MOST] = items[at];
    }
}

// Takes lost items from the recovery: they are sent before the rest.
static void take_lost(struct link *it) {
    uint64_t items[ITEMS];
    if (recovery_ffi_take_pending(&it->sender, space).kind == RECOVERY_ANSWER_QUEUE) {
        is_to_send(it, items, recovery_ffi_last_items(&it->sender, items, ITEMS));
    }
}

static void send(struct link *it, const uint64_t *items, size_t count) {
    struct recovery_encoded_reply sent = recovery_ffi_send(&it->sender, space, it->now, SIZE, true, false, 0, items, count);
    if (sent.kind == RECOVERY_ANSWER_SENT && !is_lost(it)) {
        it->packets[it->packets_to++ % MOST] = (struct packet){it->now + DELAY, recovery_sent_number(sent)};
    }
}

// Sends queued items, as far as window and pacer permit.
static void send_waiting(struct link *it) {
    it->wakes = UINT64_MAX;
    while (it->waiting_from < it->waiting_to) {
        struct recovery_encoded_reply goes = recovery_ffi_sender_transmit(&it->sender, it->now, SIZE, space, true);
        if (goes.kind == RECOVERY_ANSWER_DELAYED) {
            it->wakes = recovery_delayed_until(goes);
        }
        if (goes.kind != RECOVERY_ANSWER_TRANSMITTED) {
            return;
        }
        uint64_t items[EACH];
        size_t count = 0;
        while (count < EACH && it->waiting_from < it->waiting_to) {
            items[count++] = it->waiting[it->waiting_from++ % MOST];
        }
        send(it, items, count);
    }
}

// Receives a packet: the receiver acknowledges all received packets, the highest range first.
static void receive(struct link *it, uint64_t number) {
    it->received[number] = true;
    struct ack ack = {.arrives = it->now + DELAY};
    for (size_t at = MOST; at > 0 && ack.count < RANGES; at--) {
        if (it->received[at - 1] && (at == MOST || !it->received[at])) {
            ack.ranges[ack.count++].last = at - 1;
        }
        if (it->received[at - 1] && ack.count > 0) {
            ack.ranges[ack.count - 1].first = at - 1;
        }
    }
    while (ack.count == RANGES && ack.ranges[RANGES - 1].first > 0 && it->received[ack.ranges[RANGES - 1].first - 1]) {
        ack.ranges[RANGES - 1].first--;
    }
    if (!is_lost(it)) {
        it->acks[it->acks_to++ % MOST] = ack;
    }
}

static void acknowledge(struct link *it, const struct ack *ack) {
    struct recovery_ack_frame frame = {.delay_secs = 0};
    struct recovery_encoded_reply reply = recovery_ffi_sender_ack(&it->sender, space, it->now, &frame, ack->ranges, ack->count);
    if (reply.kind != RECOVERY_ANSWER_ACKNOWLEDGED) {
        return;
    }
    uint64_t told[2 * ITEMS];
    size_t count = recovery_ffi_told_packets(&it->sender, told, 2 * ITEMS);
    for (size_t at = 0; recovery_acknowledged_count(reply) > 0 && at < count; at += 2 + told[at + 1]) {
        for (size_t item = 0; item < told[at + 1]; item++) {
            uint64_t done = told[at + 2 + item];
            it->left -= !it->acked[done];
            it->acked[done] = true;
        }
    }
    take_lost(it);
}

static void expire(struct link *it) {
    struct recovery_encoded_reply due = recovery_ffi_sender_on_timeout(&it->sender, it->now);
    for (uint64_t at = 0; due.kind == RECOVERY_ANSWER_PROBES && at < recovery_probes_count(due); at++) {
        uint64_t items[ITEMS];
        if (recovery_ffi_sender_transmit(&it->sender, it->now, SIZE, space, true).kind != RECOVERY_ANSWER_TRANSMITTED
            || recovery_ffi_sender_probe(&it->sender, space, false).kind != RECOVERY_ANSWER_QUEUE) {
            return;
        }
        send(it, items, recovery_ffi_last_items(&it->sender, items, ITEMS));
    }
    if (due.kind == RECOVERY_ANSWER_LOSSES) {
        take_lost(it);
    }
}

static uint64_t earlier(uint64_t one, uint64_t other) {
    return one < other ? one : other;
}

// Makes the next step: a packet or an ACK arrives, the timer expires, or the pacer permits the next datagram.
static void step(struct link *it) {
    struct recovery_time_view timer = recovery_ffi_timer(&it->sender, RECOVERY_TIMER_LOSS_DETECTION);
    uint64_t packet = it->packets_from < it->packets_to ? it->packets[it->packets_from % MOST].arrives : UINT64_MAX;
    uint64_t ack = it->acks_from < it->acks_to ? it->acks[it->acks_from % MOST].arrives : UINT64_MAX;
    uint64_t expires = timer.some ? timer.nanos : UINT64_MAX;
    uint64_t next = earlier(earlier(packet, ack), earlier(expires, it->wakes));
    it->now = next > it->now ? next : it->now;
    if (next == packet) {
        receive(it, it->packets[it->packets_from++ % MOST].number);
    } else if (next == ack) {
        acknowledge(it, &it->acks[it->acks_from++ % MOST]);
    } else if (next == expires) {
        expire(it);
    }
    send_waiting(it);
}

// Makes a client whose handshake is confirmed. Returns what `recovery_ffi_sender_established` returns: RECOVERY_OK, or
// the number of what is wrong.
static uint8_t connect_ends(struct link *it, uint64_t percent) {
    struct recovery_settings settings = recovery_ffi_default_settings();
    struct recovery_address remote = {.octets = {192, 0, 2, 1}, .port = 4433};
    uint8_t id[8] = {255, 255, 255, 255, 255, 255, 255, 255};
    memset(it, 0, sizeof *it);
    it->percent = percent;
    it->dice = percent + 1;
    it->left = ITEMS;
    it->now = 1;
    return recovery_ffi_sender_established(&it->sender, true, &settings, &remote, id, sizeof id, it->now);
}

int main(void) {
    for (uint64_t percent = 0; percent <= 30; percent += 10) {
        uint8_t code = connect_ends(&ends, percent);
        if (code != RECOVERY_OK) {
            printf("no sender was made: %s\n", recovery_ffi_new_text(code));
            return 1;
        }
        for (uint64_t item = 0; item < ITEMS; item++) {
            is_to_send(&ends, &item, 1);
        }
        send_waiting(&ends);
        for (size_t steps = 0; ends.left > 0 && steps < STEPS; steps++) {
            step(&ends);
        }
        printf("%" PRIu64 " of 100 datagrams lost: %d of %d items were acknowledged\n", percent, ITEMS - (int)ends.left, ITEMS);
        recovery_ffi_drop(&ends.sender);
    }
    return 0;
}
