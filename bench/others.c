/* glibc's regexec and, where they are installed, PCRE2: one compiled form for whole lines and one for parts. */
#include <regex.h>
#include <stdlib.h>

#include "others.h"

struct glibc {
    regex_t whole, part;
};

void *glibc_new(const char *whole, const char *part) {
    struct glibc *g = malloc(sizeof *g);
    if (regcomp(&g->whole, whole, REG_EXTENDED | REG_NOSUB) != 0 || regcomp(&g->part, part, REG_EXTENDED) != 0) return NULL;
    return g;
}

int glibc_whole(void *compiled, const char *text, size_t length) {
    struct glibc *g = compiled;
    regmatch_t range = {0, (regoff_t)length};
    return regexec(&g->whole, text, 1, &range, REG_STARTEND) == 0;
}

int glibc_part(void *compiled, const char *text, size_t length, size_t *start, size_t *end) {
    struct glibc *g = compiled;
    regmatch_t range = {0, (regoff_t)length};
    if (regexec(&g->part, text, 1, &range, REG_STARTEND) != 0) return 0;
    *start = (size_t)range.rm_so;
    *end = (size_t)range.rm_eo;
    return 1;
}

#ifdef HAVE_PCRE2
#define PCRE2_CODE_UNIT_WIDTH 8
#include <pcre2.h>

struct pcre2 {
    pcre2_code *whole, *part;
    pcre2_match_data *data;
    pcre2_match_context *context;
};

static pcre2_code *compiled_pcre2(const char *expression) {
    int error;
    PCRE2_SIZE place;
    pcre2_code *code = pcre2_compile((PCRE2_SPTR)expression, PCRE2_ZERO_TERMINATED, 0, &error, &place, NULL);
    if (code != NULL) pcre2_jit_compile(code, PCRE2_JIT_COMPLETE);
    return code;
}

void *pcre2_new(const char *whole, const char *part) {
    struct pcre2 *p = malloc(sizeof *p);
    p->whole = compiled_pcre2(whole);
    p->part = compiled_pcre2(part);
    if (p->whole == NULL || p->part == NULL) return NULL;
    p->data = pcre2_match_data_create(1, NULL);
    p->context = pcre2_match_context_create(NULL);
    pcre2_jit_stack_assign(p->context, NULL, pcre2_jit_stack_create(1 << 15, 1 << 26, NULL));
    return p;
}

/* 1 or 0, or -1 where it gives up. */
static int ran(int answer) { return answer >= 0 ? 1 : answer == PCRE2_ERROR_NOMATCH ? 0 : -1; }

int pcre2_whole(void *compiled, const char *text, size_t length) {
    struct pcre2 *p = compiled;
    return ran(pcre2_match(p->whole, (PCRE2_SPTR)text, length, 0, 0, p->data, p->context));
}

int pcre2_part(void *compiled, const char *text, size_t length, size_t *start, size_t *end) {
    struct pcre2 *p = compiled;
    int answer = ran(pcre2_match(p->part, (PCRE2_SPTR)text, length, 0, 0, p->data, p->context));
    *start = pcre2_get_ovector_pointer(p->data)[0];
    *end = pcre2_get_ovector_pointer(p->data)[1];
    return answer;
}
#endif
