/* The contents of memory are not followed; that the arguments are evaluated is kept, and that no object gets away. */
#include_next <string.h>
#ifndef NALVEGOP_STRING_H
#define NALVEGOP_STRING_H
#include "../nalvegop.h"
#undef memcpy
#undef memmove
#undef memset
#undef strcpy
#undef strncpy
#undef strcat
#undef strncat
#undef strcmp
#undef strncmp
#undef memcmp
#undef strlen
#undef strdup
#undef strndup
#undef strchr
#undef strrchr
#undef strstr
#undef strpbrk
#undef strcasestr
#undef memchr
#undef stpcpy
#undef strspn
#undef strcspn
#undef strnlen
#define memcpy(d, ...) ((void)(__VA_ARGS__), (d))
#define memmove(d, ...) ((void)(__VA_ARGS__), (d))
#define memset(d, ...) ((void)(__VA_ARGS__), (d))
#define strcpy(d, ...) ((void)(__VA_ARGS__), (d))
#define strncpy(d, ...) ((void)(__VA_ARGS__), (d))
#define strcat(d, ...) ((void)(__VA_ARGS__), (d))
#define strncat(d, ...) ((void)(__VA_ARGS__), (d))
#define strcmp(...) ((void)(__VA_ARGS__), nalvegop_int())
#define strncmp(...) ((void)(__VA_ARGS__), nalvegop_int())
#define memcmp(...) ((void)(__VA_ARGS__), nalvegop_int())
#define strlen(...) ((void)(__VA_ARGS__), nalvegop_ulong())
#define strchr(...) nalvegop_inside(((void)(__VA_ARGS__), 0))
#define strrchr(...) nalvegop_inside(((void)(__VA_ARGS__), 0))
#define strstr(...) nalvegop_inside(((void)(__VA_ARGS__), 0))
#define strpbrk(...) nalvegop_inside(((void)(__VA_ARGS__), 0))
#define strcasestr(...) nalvegop_inside(((void)(__VA_ARGS__), 0))
#define memchr(...) nalvegop_inside(((void)(__VA_ARGS__), 0))
#define stpcpy(...) nalvegop_inside(((void)(__VA_ARGS__), 0))
#define strspn(...) ((void)(__VA_ARGS__), nalvegop_ulong())
#define strcspn(...) ((void)(__VA_ARGS__), nalvegop_ulong())
#define strnlen(...) ((void)(__VA_ARGS__), nalvegop_ulong())
#define strdup(s) malloc(((void)(s), 1U))
#define strndup(s, n) malloc(((void)(s), (void)(n), 1U))
#endif
