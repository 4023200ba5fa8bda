// A tunnel other than QUIC: MTU discovery of a path, and a burst that is paced. docs/TUNNEL.md shows it.
#include "recovery_ffi.h"
#include <inttypes.h>
#include <stdio.h>

// Probes over a link that carries `link` bytes, from a packet number on. Returns the number after the probes.
static uint64_t search(struct recovery_mtu_handle *mtu, uint16_t link, uint64_t number) {
    for (;;) {
        struct recovery_encoded_reply probe = recovery_ffi_mtu_poll(mtu, 0, number);
        if (probe.kind != RECOVERY_ANSWER_PROBE) {
            return number;
        }
        printf("probe %u\n", probe.size);
        if (probe.size <= link) {
            recovery_ffi_mtu_acked(mtu, number, probe.size);
        } else {
            recovery_ffi_mtu_probe_lost(mtu);
        }
        number += 1;
    }
}

int main(void) {
    struct recovery_settings settings = recovery_ffi_default_settings();
    struct recovery_mtu_handle mtu = {0};
    printf("without a discovery: refused by %u\n", recovery_ffi_mtu_poll(&mtu, 0, 0).refusal);
    if (recovery_ffi_mtu_new(&mtu, &settings, 0) != RECOVERY_NEW_MADE) {
        printf("no discovery was made\n");
        return 1;
    }
    printf("made again: %d\n", recovery_ffi_mtu_new(&mtu, &settings, 0) == RECOVERY_NEW_HELD);
    uint64_t number = search(&mtu, 1500, 0);
    printf("MTU %u\n", recovery_ffi_mtu(&mtu).mtu);
    for (int burst = 0; burst < 4; burst += 1) {
        recovery_ffi_mtu_lost(&mtu, number, 1452);
        number += 10;
        printf("black hole %d\n", recovery_ffi_mtu_losses_done(&mtu, 0).flag);
    }
    printf("MTU %u\n", recovery_ffi_mtu(&mtu).mtu);
    recovery_ffi_mtu_drop(&mtu);

    uint64_t rtt = 333000000;
    struct recovery_bucket pacer = recovery_ffi_pacer(rtt, 12000, 1200, 0);
    int sent = 0;
    struct recovery_encoded_reply reply = recovery_ffi_pacer_delay(&pacer, rtt, 1200, 1200, 12000, 0);
    while (reply.kind == RECOVERY_ANSWER_READY) {
        recovery_ffi_pacer_transmit(&pacer, 1200);
        sent += 1;
        reply = recovery_ffi_pacer_delay(&pacer, rtt, 1200, 1200, 12000, 0);
    }
    printf("%d packets at once, the next at %" PRIu64 "\n", sent, reply.first);
    struct recovery_bucket none = {0};
    printf("without a bucket: refused by %u\n", recovery_ffi_pacer_transmit(&none, 1200).refusal);
    return 0;
}
