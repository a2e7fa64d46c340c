/* Other matchers behind one form. `_new` compiles an expression for whole texts and one for parts; the others answer 1 or
 * 0, or -1 where the matcher gives up. */
#include <stddef.h>

#ifdef __cplusplus
extern "C" {
#endif

void *glibc_new(const char *whole, const char *part);
int glibc_whole(void *compiled, const char *text, size_t length);
int glibc_part(void *compiled, const char *text, size_t length, size_t *start, size_t *end);

void *pcre2_new(const char *whole, const char *part);
int pcre2_whole(void *compiled, const char *text, size_t length);
int pcre2_part(void *compiled, const char *text, size_t length, size_t *start, size_t *end);

void *re2_new(const char *whole, const char *part);
int re2_whole(void *compiled, const char *text, size_t length);
int re2_part(void *compiled, const char *text, size_t length, size_t *start, size_t *end);

/* The most bytes of stack that are in use at once while a call runs on a thread of its own, that of the thread included. */
size_t stack_used(void (*call)(void *), void *argument);

#ifdef __cplusplus
}
#endif
