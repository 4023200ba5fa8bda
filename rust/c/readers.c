// Readers of the library only read: each is called on a copy of the handle's bytes while all memory of the library is
// write-protected, so that a write ends this program. The Rust crate relies on it, for its readers may run at once in
// several threads. A handle's own bytes are the same after the call.
#define _DEFAULT_SOURCE
#include "static_memory.h"
#include <stdio.h>
#include <sys/mman.h>

static const unsigned space = RECOVERY_SPACE_DATA;
static struct recovery_handle sender, copy;
static struct recovery_mtu_handle mtu, mtu_copy;
static unsigned readings;

// Makes the copies, whose bytes a call has to leave as they are.
static void begin(void) {
    copy = sender;
    mtu_copy = mtu;
}

static void end(void) {
    bool same = copy.ptr == sender.ptr && copy.holds == sender.holds;
    bool same_mtu = mtu_copy.ptr == mtu.ptr && mtu_copy.holds == mtu.holds;
    readings += same && same_mtu;
}

#define READ(call) (begin(), (void)(call), end())

static void read_all(void) {
    uint64_t out[32];
    uint8_t token[16];
    READ(recovery_ffi_window(&copy));
    READ(recovery_ffi_pacer_room(&copy, 200000000));
    READ(recovery_ffi_rtt(&copy));
    READ(recovery_ffi_active_id(&copy));
    READ(recovery_ffi_has_in_flight(&copy, space));
    READ(recovery_ffi_smallest_tracked(&copy, space));
    READ(recovery_ffi_pending_items(&copy, space));
    READ(recovery_ffi_probe_items(&copy, space));
    READ(recovery_ffi_tracked(&copy, space));
    READ(recovery_ffi_token(&copy, token));
    READ(recovery_ffi_is_token(&copy, token));
    READ(recovery_ffi_marks(&copy, false));
    READ(recovery_ffi_last_items(&copy, out, 32));
    READ(recovery_ffi_path(&copy, false));
    READ(recovery_ffi_space(&copy, space));
    READ(recovery_ffi_range(&copy, space, 0));
    READ(recovery_ffi_ack_delay(&copy, space, 200000000));
    READ(recovery_ffi_timer(&copy, RECOVERY_TIMER_LOSS_DETECTION));
    READ(recovery_ffi_ids(&copy));
    READ(recovery_ffi_next_id_timeout(&copy));
    READ(recovery_ffi_sender_view(&copy));
    READ(recovery_ffi_pto_count(&copy));
    READ(recovery_ffi_last_outcome(&copy));
    READ(recovery_ffi_told_numbers(&copy, true, out, 32));
    READ(recovery_ffi_told_packets(&copy, out, 32));
    READ(recovery_ffi_mtu(&mtu_copy));
}

// Gives each reader something to read: items in flight, lost and taken, an outcome, and a received packet.
static bool is_filled(void) {
    struct recovery_ack_frame frame = {.delay_secs = 0};
    struct recovery_ack_range range = {10, 12};
    for (uint64_t item = 0; item < 16; item++) {
        recovery_ffi_send(&sender, space, 1000000 + item, 1000, true, false, 0, &item, 1);
    }
    recovery_ffi_received(&sender, space, 2000000, 7, true);
    recovery_ffi_sender_ack(&sender, space, 101000000, &frame, &range, 1);
    recovery_ffi_take_pending(&sender, space);
    recovery_ffi_mtu_poll(&mtu, 1000000, 0);
    return recovery_ffi_last_outcome(&sender).lost == 10 && recovery_ffi_last_items(&sender, NULL, 0) == 10;
}

int main(void) {
    struct recovery_settings settings = recovery_ffi_default_settings();
    struct recovery_address remote = {.octets = {192, 0, 2, 1}, .port = 4433};
    recovery_ffi_sender_established(&sender, true, &settings, &remote, NULL, 0, 1000000);
    recovery_ffi_mtu_new(&mtu, &settings, 0);
    if (!is_filled() || mprotect(memory, sizeof memory, PROT_READ) != 0) {
        printf("nothing is tried\n");
        return 1;
    }
    read_all();
    mprotect(memory, sizeof memory, PROT_READ | PROT_WRITE);
    printf("%u readings\n", readings);
    recovery_ffi_drop(&sender);
    recovery_ffi_mtu_drop(&mtu);
    return 0;
}
