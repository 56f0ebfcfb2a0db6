#ifndef _LINUX_RCUPDATE_H
#define _LINUX_RCUPDATE_H
static inline void __rcu_read_lock(void) { __asm__ volatile("" ::: "memory"); }
static inline void rcu_read_lock(void) { __rcu_read_lock(); }
static inline void rcu_read_unlock(void) { }
#define rcu_dereference(p) ({ __typeof__(p) __p = (p); __p; })
#define preempt_disable() __asm__ volatile("" ::: "memory")
#endif
