// What a connection of quic-go asks of the library in one call from Go to C: such a call costs more than most calls of
// the library. All is in memory of C, so that Go passes one pointer, and its garbage collector scans nothing.
#include "recovery_ffi.h"
#include <stdlib.h>
#include <string.h>

// Numbers, of which the array has room for so many.
struct glue_list {
    uint64_t *at;
    size_t len, room;
};

struct glue {
    struct recovery_handle handle;
    // the reply to the last call, and what can be read after it
    struct recovery_encoded_reply reply;
    struct recovery_path_view path;
    struct recovery_sender_view view;
    // the smallest number that each space tracks, as of the last call for it
    struct recovery_number_view lowest[3];
    // acknowledged packets as the library writes them, the numbers of lost ones, and the items of a queue
    struct glue_list acked, lost, items;
    // the ranges of an ACK frame
    struct recovery_ack_range *ranges;
    size_t ranges_room;
};

static void glue_read(struct glue *it) {
    it->path = recovery_ffi_path(&it->handle, false);
    it->view = recovery_ffi_sender_view(&it->handle);
}

static void glue_read_space(struct glue *it, uint8_t space) {
    it->lowest[space] = recovery_ffi_smallest_tracked(&it->handle, space);
    glue_read(it);
}

// An array with room for so many elements. A Go program ends if there is no memory, and so does this.
static void *glue_array(void *old, size_t count, size_t size) {
    void *grown = realloc(old, count * size);
    if (grown == NULL) {
        abort();
    }
    return grown;
}

static void glue_grow(struct glue_list *it, size_t needed) {
    if (needed > it->room) {
        it->room = 2 * needed;
        it->at = glue_array(it->at, it->room, sizeof *it->at);
    }
}

static void glue_ranges(struct glue *it, size_t needed) {
    if (needed > it->ranges_room) {
        it->ranges_room = 2 * needed;
        it->ranges = glue_array(it->ranges, it->ranges_room, sizeof *it->ranges);
    }
}

// Reads the items of the queue that was taken last.
static void glue_items(struct glue *it) {
    glue_grow(&it->items, recovery_ffi_last_items(&it->handle, NULL, 0));
    it->items.len = recovery_ffi_last_items(&it->handle, it->items.at, it->items.room);
}

// Reads which packets the last pass declared lost, and takes what waits for retransmission.
static void glue_losses(struct glue *it, uint8_t space) {
    glue_grow(&it->lost, recovery_ffi_told_numbers(&it->handle, true, NULL, 0));
    it->lost.len = recovery_ffi_told_numbers(&it->handle, true, it->lost.at, it->lost.room);
    if (recovery_ffi_take_pending(&it->handle, space).kind == RECOVERY_ANSWER_QUEUE) {
        glue_items(it);
    }
}

// A handshake packet found room, so its space does not wait for that any more.
static void glue_has_room(struct glue *it, uint8_t space, uint64_t now, bool elicits) {
    if (elicits && space != RECOVERY_SPACE_DATA) {
        recovery_ffi_sender_transmit(&it->handle, now, 0, space, true);
    }
}

// A packet is sent in a datagram that may be sent: its item is its own number.
static void glue_send(struct glue *it, uint8_t space, uint64_t now, uint16_t size, bool elicits, uint64_t item) {
    glue_has_room(it, space, now, elicits);
    it->reply = recovery_ffi_sender_transmit(&it->handle, now, size, space, false);
    if (it->reply.kind == RECOVERY_ANSWER_TRANSMITTED) {
        it->reply = recovery_ffi_send(&it->handle, space, now, elicits ? size : 0, elicits, false, 0, &item, elicits);
    }
    glue_read_space(it, space);
}

// A number is skipped: nothing is sent.
static void glue_skip(struct glue *it, uint8_t space, uint64_t now) {
    it->reply = recovery_ffi_send(&it->handle, space, now, 0, false, false, 0, NULL, 0);
}

// An ACK frame is received, with the first of the ranges. It is processed only once there is room for what it results
// in.
static void glue_ack(struct glue *it, uint8_t space, uint64_t now, uint64_t delay, bool app_limited, size_t ranges) {
    struct recovery_ack_frame frame = {.delay_secs = delay / 1000000000, .delay_nanos = delay % 1000000000};
    frame.app_limited = app_limited;
    frame.is_limited = true;
    it->acked.len = it->lost.len = it->items.len = 0;
    frame.packets_room = it->acked.room;
    frame.lost_room = it->lost.room;
    it->reply = recovery_ffi_sender_ack(&it->handle, space, now, &frame, it->ranges, ranges);
    if (it->reply.kind == RECOVERY_ANSWER_NEEDS_ROOM) {
        glue_grow(&it->acked, recovery_needs_room_packets(it->reply));
        glue_grow(&it->lost, recovery_needs_room_lost(it->reply));
        frame.packets_room = it->acked.room;
        frame.lost_room = it->lost.room;
        it->reply = recovery_ffi_sender_ack(&it->handle, space, now, &frame, it->ranges, ranges);
    }
    if (it->reply.kind == RECOVERY_ANSWER_ACKNOWLEDGED) {
        it->acked.len = recovery_ffi_told_packets(&it->handle, it->acked.at, it->acked.room);
        if (recovery_acknowledged_lost(it->reply) > 0) {
            glue_losses(it, space);
        }
    }
    glue_read_space(it, space);
}

static void glue_timeout(struct glue *it, uint64_t now) {
    it->lost.len = it->items.len = 0;
    it->reply = recovery_ffi_sender_on_timeout(&it->handle, now);
    if (it->reply.kind == RECOVERY_ANSWER_LOSSES) {
        glue_losses(it, recovery_losses_space(it->reply));
        glue_read_space(it, recovery_losses_space(it->reply));
    } else {
        glue_read(it);
    }
}

// Takes what a probe carries, which needs no room.
static void glue_probe(struct glue *it, uint8_t space, uint64_t now) {
    it->items.len = 0;
    glue_has_room(it, space, now, true);
    it->reply = recovery_ffi_sender_probe(&it->handle, space, false);
    if (it->reply.kind == RECOVERY_ANSWER_QUEUE) {
        glue_items(it);
    }
    glue_read(it);
}

// A handshake packet finds no room in the window for a datagram of this size.
static void glue_wait(struct glue *it, uint8_t space, uint64_t now, uint16_t size) {
    it->reply = recovery_ffi_sender_transmit(&it->handle, now, size, space, true);
    glue_read(it);
}

static void glue_retransmit_all(struct glue *it, uint8_t space, uint64_t now) {
    it->lost.len = it->items.len = 0;
    do {
        it->reply = recovery_ffi_sender_retransmit_all(&it->handle, space, now);
    } while (it->reply.kind == RECOVERY_ANSWER_LOSSES && recovery_ffi_last_outcome(&it->handle).is_cut);
    if (it->reply.kind == RECOVERY_ANSWER_LOSSES) {
        glue_losses(it, space);
    }
    glue_read_space(it, space);
}

static void glue_drop(struct glue *it) {
    recovery_ffi_drop(&it->handle);
    free(it->acked.at);
    free(it->lost.at);
    free(it->items.at);
    free(it->ranges);
    free(it);
}
