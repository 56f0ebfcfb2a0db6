#include_next <errno.h>
#ifndef NALVEGOP_ERRNO_H
#define NALVEGOP_ERRNO_H
#include "../nalvegop.h"
#undef errno
#define errno nalvegop_errno
#endif
