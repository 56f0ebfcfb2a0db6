/* Printing succeeds, and what is printed does not get away. */
#include_next <stdio.h>
#ifndef NALVEGOP_STDIO_H
#define NALVEGOP_STDIO_H
#include "../nalvegop.h"
#undef printf
#undef fprintf
#undef vprintf
#undef vfprintf
#undef puts
#undef fputs
#undef putchar
#undef putc
#undef fputc
#undef perror
#undef snprintf
#undef sprintf
#undef vsnprintf
#undef asprintf
#undef fflush
#define printf(...) ((void)(__VA_ARGS__), 1)
#define fprintf(...) ((void)(__VA_ARGS__), 1)
#define puts(...) ((void)(__VA_ARGS__), 1)
#define fputs(...) ((void)(__VA_ARGS__), 1)
#define putchar(...) ((void)(__VA_ARGS__), 1)
#define putc(...) ((void)(__VA_ARGS__), 1)
#define fputc(...) ((void)(__VA_ARGS__), 1)
#define perror(...) ((void)(__VA_ARGS__))
#define snprintf(...) ((void)(__VA_ARGS__), nalvegop_int())
#define sprintf(...) ((void)(__VA_ARGS__), nalvegop_int())
#undef fgets
#undef fread
#undef fwrite
#define fgets(s, ...) ((void)(__VA_ARGS__), nalvegop_more() ? (s) : 0)
#define fread(...) ((void)(__VA_ARGS__), nalvegop_ulong())
#define fwrite(...) ((void)(__VA_ARGS__), nalvegop_ulong())
static inline int nalvegop_asprintf(char **p)
{
	char *made = malloc(1);

	if (!made)
		return -1;
	*p = made;
	return 1;
}
#define asprintf(p, ...) nalvegop_asprintf(((void)(__VA_ARGS__), (p)))
#endif
