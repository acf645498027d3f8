// The owner of a name, in C++. g++ include/example.cpp target/staticlib/libmenqachu.a
#include "menqachu.h"
#include <cstdio>
#include <string_view>

int main() {
    // head 1.0.0; struct scan slot=metadata; end
    static const uint8_t stream[] = {1, 0, 0, 5, 0, 8, 5, 0, 4, 9, 0, 8, 0xFF, 0xFF, 0, 15};
    static const std::string_view pool = "1.0.0scanmetadata", name = "scan";
    auto bytes = [](std::string_view text) { return reinterpret_cast<const uint8_t *>(text.data()); };
    menqachu_owner_answer a = menqachu_owner(stream, sizeof stream, bytes(pool), pool.size(), bytes(name), name.size());
    if (a.number != 0)
        std::printf("%u %zu\n", a.number, a.place);
    else if (a.owned == 0)
        std::puts("nobody");
    else
        std::printf("%.*s\n", static_cast<int>(a.len), pool.data() + a.start);
    return 0;
}
