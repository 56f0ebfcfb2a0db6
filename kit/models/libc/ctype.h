/* Kinds of characters, and letters in the other case, are not followed. */
#include_next <ctype.h>
#ifndef NALVEGOP_CTYPE_H
#define NALVEGOP_CTYPE_H
#include "../nalvegop.h"
#undef isalnum
#undef isalpha
#undef isblank
#undef iscntrl
#undef isdigit
#undef isgraph
#undef islower
#undef isprint
#undef ispunct
#undef isspace
#undef isupper
#undef isxdigit
#undef tolower
#undef toupper
#define isalnum(c) ((void)(c), nalvegop_int())
#define isalpha(c) ((void)(c), nalvegop_int())
#define isblank(c) ((void)(c), nalvegop_int())
#define iscntrl(c) ((void)(c), nalvegop_int())
#define isdigit(c) ((void)(c), nalvegop_int())
#define isgraph(c) ((void)(c), nalvegop_int())
#define islower(c) ((void)(c), nalvegop_int())
#define isprint(c) ((void)(c), nalvegop_int())
#define ispunct(c) ((void)(c), nalvegop_int())
#define isspace(c) ((void)(c), nalvegop_int())
#define isupper(c) ((void)(c), nalvegop_int())
#define isxdigit(c) ((void)(c), nalvegop_int())
#define tolower(c) ((void)(c), nalvegop_int())
#define toupper(c) ((void)(c), nalvegop_int())
#endif
