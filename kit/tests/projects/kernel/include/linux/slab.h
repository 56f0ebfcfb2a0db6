#ifndef _LINUX_SLAB_H
#define _LINUX_SLAB_H
extern void *kzalloc(unsigned long size, unsigned flags);
extern void kfree(const void *object);
#define GFP_KERNEL 0xcc0u
#endif
