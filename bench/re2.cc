// RE2, where it is installed: leftmost and longest, as the library's search.
#include <re2/re2.h>

#include "others.h"

static RE2::Options longest() {
    RE2::Options options(RE2::Latin1);
    options.set_longest_match(true);
    options.set_log_errors(false);
    return options;
}

struct Compiled {
    RE2 whole, part;
    Compiled(const char *w, const char *p) : whole(w, longest()), part(p, longest()) {}
};

extern "C" void *re2_new(const char *whole, const char *part) {
    auto *compiled = new Compiled(whole, part);
    return compiled->whole.ok() && compiled->part.ok() ? compiled : nullptr;
}

extern "C" int re2_whole(void *compiled, const char *text, size_t length) {
    return static_cast<Compiled *>(compiled)->whole.Match(re2::StringPiece(text, length), 0, length, RE2::ANCHOR_BOTH, nullptr,
                                                          0);
}

extern "C" int re2_part(void *compiled, const char *text, size_t length, size_t *start, size_t *end) {
    re2::StringPiece part;
    if (!static_cast<Compiled *>(compiled)->part.Match(re2::StringPiece(text, length), 0, length, RE2::UNANCHORED, &part, 1))
        return 0;
    *start = part.data() - text;
    *end = *start + part.size();
    return 1;
}
