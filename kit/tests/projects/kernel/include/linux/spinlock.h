#ifndef _LINUX_SPINLOCK_H
#define _LINUX_SPINLOCK_H
typedef struct spinlock { int raw; } spinlock_t;
extern void _raw_spin_lock_irqsave(spinlock_t *lock);
static inline __attribute__((__always_inline__)) void spin_lock(spinlock_t *lock) { lock->raw = 1; __asm__ volatile("" ::: "memory"); }
static inline __attribute__((__always_inline__)) void spin_unlock(spinlock_t *lock) { lock->raw = 0; }
#define spin_lock_irqsave(lock, flags)				\
do {								\
	typeof(flags) __dummy = 0; (void)__dummy;		\
	flags = ({ unsigned long x; x; });			\
	_raw_spin_lock_irqsave(lock);				\
} while (0)
extern void spin_unlock_irqrestore(spinlock_t *lock, unsigned long flags);
#endif
