#include_next <strings.h>
#ifndef NALVEGOP_STRINGS_H
#define NALVEGOP_STRINGS_H
#include "../nalvegop.h"
#define strcasecmp(...) ((void)(__VA_ARGS__), nalvegop_int())
#define strncasecmp(...) ((void)(__VA_ARGS__), nalvegop_int())
#undef bzero
#define bzero(...) ((void)(__VA_ARGS__))
#endif
