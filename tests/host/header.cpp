// The header serves C++ too: it compiles, twice over, and the function is found under its C name.
#include "hilladok.h"
#include "hilladok.h"

#include <cstdio>
#include <cstring>

static bool is_syntax(uint32_t answer)
{
    switch (answer - HILLADOK_REFUSED) {
    case HILLADOK_SYNTAX:
        return true;
    default:
        return false;
    }
}

int main()
{
    const char skip[] = "default_certification ( ValidationArgs { no_certification : Empty { } } )";
    const char printed[] = "default_certification(ValidationArgs{no_certification:Empty{}})";
    const uint8_t *text = reinterpret_cast<const uint8_t *>(skip);
    uint8_t out[HILLADOK_MOST_BYTES];

    const uint32_t length = hilladok_canonicalise(text, sizeof skip - 1, out, sizeof out);
    if (length != sizeof printed - 1 || std::memcmp(out, printed, sizeof printed - 1) != 0) {
        std::fprintf(stderr, "header: a Skip text is not printed\n");
        return 1;
    }
    if (!is_syntax(hilladok_canonicalise(text, 1, out, sizeof out))) {
        std::fprintf(stderr, "header: a text cut short is not refused\n");
        return 1;
    }
    std::puts("header: 2 checks passed from C++");
    return 0;
}
