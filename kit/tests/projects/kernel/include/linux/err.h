#ifndef _LINUX_ERR_H
#define _LINUX_ERR_H
static inline void *ERR_PTR(long error) { return (void *)error; }
static inline _Bool IS_ERR(const void *p) { return (unsigned long)p >= (unsigned long)-4095; }
#endif
