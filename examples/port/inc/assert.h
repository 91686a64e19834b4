/* What has to hold. Each #include obeys the NDEBUG of its place, so there is no guard. */
#undef assert

#ifdef NDEBUG
#define assert(x) ((void)0)
#else
#define assert(x) ((x) ? (void)0 : __assert_fail(#x, __FILE__, __LINE__))
#endif

#ifdef __cplusplus
extern "C" void __assert_fail(const char *text, const char *file, unsigned line) __attribute__((noreturn));
#else
void __assert_fail(const char *text, const char *file, unsigned line) __attribute__((noreturn));
#ifndef static_assert
#define static_assert _Static_assert
#endif
#endif
