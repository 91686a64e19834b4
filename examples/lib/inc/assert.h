/* Ends the environment with a line that names the place. (JOS: inc/assert.h) */
#ifndef INC_ASSERT_H
#define INC_ASSERT_H

void _panic(const char *file, int line, const char *fmt, ...) __attribute__((noreturn));

#define panic(...) _panic(__FILE_NAME__, __LINE__, __VA_ARGS__)
#define assert(x) ((x) ? (void)0 : panic("assertion failed: %s", #x))

#endif
