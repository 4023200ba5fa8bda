// Sends a packet, declares it lost, and retransmits its items: from C.
#include "recovery_ffi.h"
#include <inttypes.h>
#include <stdio.h>

static void tell(struct recovery_handle *recovery) {
    struct recovery_path_view path = recovery_ffi_path(recovery, false);
    printf("window %" PRIu64 ", in flight %" PRIu64 " bytes, MTU %u\n", path.window, path.in_flight, path.mtu);
}

int main(void) {
    struct recovery_handle recovery = {0};
    struct recovery_settings settings = recovery_ffi_default_settings();
    struct recovery_address remote = {.octets = {192, 0, 2, 1}, .port = 4433};
    uint8_t id[8] = {255, 255, 255, 255, 255, 255, 255, 255};
    uint8_t code = recovery_ffi_new(&recovery, &settings, &remote, id, sizeof id, 0);
    if (code != RECOVERY_OK) {
        printf("no recovery was made: %s\n", recovery_ffi_new_text(code));
        return 1;
    }
    uint64_t items[2] = {7, 8};
    struct recovery_encoded_reply sent = recovery_ffi_send(&recovery, RECOVERY_SPACE_DATA, 0, 1200, true, false, 0, items, 2);
    printf("sent %d, as number %" PRIu64 "\n", sent.kind == RECOVERY_ANSWER_SENT, recovery_sent_number(sent));
    tell(&recovery);
    struct recovery_encoded_reply lost = recovery_ffi_lost(&recovery, RECOVERY_SPACE_DATA, recovery_sent_number(sent));
    printf("lost %d\n", lost.kind == RECOVERY_ANSWER_LOST);
    struct recovery_encoded_reply again = recovery_ffi_lost(&recovery, RECOVERY_SPACE_DATA, recovery_sent_number(sent));
    printf("lost again: error %u, %s\n", again.refusal, recovery_ffi_text(again.refusal));
    if (recovery_ffi_take_pending(&recovery, RECOVERY_SPACE_DATA).kind == RECOVERY_ANSWER_QUEUE) {
        uint64_t taken[8];
        size_t count = recovery_ffi_last_items(&recovery, taken, 8);
        printf("%zu items to be sent again: %" PRIu64 " and %" PRIu64 "\n", count, taken[0], taken[1]);
    }
    tell(&recovery);
    recovery_ffi_drop(&recovery);
    return 0;
}
