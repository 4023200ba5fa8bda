// The same declarations from C++: a recovery that is freed when its owner is destroyed.
#include "recovery_ffi.h"
#include <cstdint>
#include <cstdio>
#include <stdexcept>

namespace {

class Recovery {
public:
    explicit Recovery(const recovery_address &remote) {
        const recovery_settings settings = recovery_ffi_default_settings();
        const std::uint8_t id[8] = {1};
        const std::uint8_t code = recovery_ffi_new(&handle, &settings, &remote, id, sizeof id, 0);
        if (code != RECOVERY_OK) {
            throw std::runtime_error(recovery_ffi_new_text(code));
        }
    }
    Recovery(const Recovery &) = delete;
    Recovery &operator=(const Recovery &) = delete;
    ~Recovery() { recovery_ffi_drop(&handle); }

    recovery_encoded_reply received(std::uint64_t now, std::uint64_t number) {
        return recovery_ffi_received(&handle, RECOVERY_SPACE_DATA, now, number, true);
    }
    recovery_space_view space() { return recovery_ffi_space(&handle, RECOVERY_SPACE_DATA); }

private:
    recovery_handle handle{};
};

} // namespace

int main() {
    recovery_address remote{};
    remote.port = 4433;
    Recovery recovery(remote);
    std::printf("new %d\n", recovery.received(0, 0).kind == RECOVERY_ANSWER_NEW);
    std::printf("duplicate %d\n", recovery.received(1, 0).kind == RECOVERY_ANSWER_DUPLICATE);
    std::printf("%d range to acknowledge\n", static_cast<int>(recovery.space().ranges));
    return 0;
}
