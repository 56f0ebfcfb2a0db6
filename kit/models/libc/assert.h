/* (no guard: the real header has none either, since NDEBUG may change) */
#include_next <assert.h>
#undef assert
#ifdef NDEBUG
#define assert(e) ((void)0)
#else
#define assert(e) ((e) ? (void)0 : __assert_fail("", "", 0, ""))
#endif
