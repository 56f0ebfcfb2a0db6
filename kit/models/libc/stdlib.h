#include_next <stdlib.h>
#ifndef NALVEGOP_STDLIB_H
#define NALVEGOP_STDLIB_H
#include "../nalvegop.h"
#define realloc(p, n) nalvegop_realloc((p), (n))
#define reallocarray(p, n, s) nalvegop_realloc((p), (n) * (s))
#define aligned_alloc(a, n) malloc(((void)(a), (n)))
static inline int nalvegop_memalign(void **p, unsigned long n)
{
	void *q = malloc(n);

	if (!q)
		return 12;
	*p = q;
	return 0;
}
#define posix_memalign(p, a, n) nalvegop_memalign((p), ((void)(a), (n)))
/* Numbers: where a text stops to be one is not followed. */
#undef atoi
#define atoi(...) ((void)(__VA_ARGS__), nalvegop_int())
#undef atol
#define atol(...) ((void)(__VA_ARGS__), nalvegop_long())
#undef strtol
#define strtol(...) ((void)(__VA_ARGS__), nalvegop_long())
#undef strtoul
#define strtoul(...) ((void)(__VA_ARGS__), nalvegop_ulong())
#endif
