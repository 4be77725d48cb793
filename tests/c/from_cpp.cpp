// The header from C++: its names link, and its constants compare with what the functions return.
#include <cstdint>
#include <vector>

#include "rangekeeper.h"

int main()
{
    std::vector<std::uint64_t> windows(rk_address_words(8)), numbers(rk_id_words(1, 3));
    std::uint64_t start = 0;
    std::uint32_t id = 0;
    bool right = rk_address_new(windows.data(), windows.size(), 0x1000, 0x1000, 8) == RK_DONE
        && rk_address_allocate(windows.data(), windows.size(), 0x10, 0x10, RK_LAST, 0, &start) == RK_DONE && start == 0x1ff0
        && rk_address_allocate(windows.data(), windows.size(), 0x10, 0x10, 3, 0, &start) == RK_INVALID_POLICY && start == 0x1ff0
        && rk_address_allocate(windows.data(), windows.size(), 0, 0, 3, 0, &start) == RK_INVALID_POLICY
        && rk_id_allocate(windows.data(), windows.size(), &id) == RK_NO_STATE && id == 0
        && rk_id_new(numbers.data(), numbers.size(), 1, 3) == RK_DONE
        && rk_id_allocate(numbers.data(), numbers.size(), &id) == RK_DONE && id == 1
        && rk_address_free(numbers.data(), numbers.size(), 0, 0) == RK_NO_STATE
        && rk_address_new(nullptr, 0, 0, 1, 1) == RK_NO_ROOM && rk_id_new(nullptr, 0, 0, 0) == RK_NO_ROOM
        && rk_address_count(nullptr, 0) == 0 && rk_id_allocate(nullptr, 0, &id) == RK_NO_STATE;
    return right ? 0 : 1;
}
