/*
 * Models of the Linux kernel's interfaces: put in front of a file, it includes the usual headers and then sets their
 * macros anew, so that locks, allocations and lists say what a check has to know. docs/MODELS.md says of each family
 * what it keeps, what it may miss, and where it may report falsely. No macro evaluates an argument twice, but for the
 * names of variables.
 */
#ifndef NALVEGOP_LINUX_H
#define NALVEGOP_LINUX_H
#include "nalvegop.h"
#ifdef __has_include
#if __has_include(<linux/kernel.h>)
#include <linux/kernel.h>
#endif
#if __has_include(<linux/module.h>)
#include <linux/module.h>
#endif
#if __has_include(<linux/slab.h>)
#include <linux/slab.h>
#endif
#if __has_include(<linux/vmalloc.h>)
#include <linux/vmalloc.h>
#endif
#if __has_include(<linux/string.h>)
#include <linux/string.h>
#endif
#if __has_include(<linux/spinlock.h>)
#include <linux/spinlock.h>
#endif
#if __has_include(<linux/mutex.h>)
#include <linux/mutex.h>
#endif
#if __has_include(<linux/list.h>)
#include <linux/list.h>
#endif
#if __has_include(<linux/err.h>)
#include <linux/err.h>
#endif
#if __has_include(<linux/kref.h>)
#include <linux/kref.h>
#endif
#if __has_include(<linux/wait.h>)
#include <linux/wait.h>
#endif
#if __has_include(<linux/uaccess.h>)
#include <linux/uaccess.h>
#endif
#if __has_include(<linux/io.h>)
#include <linux/io.h>
#endif
#if __has_include(<linux/device.h>)
#include <linux/device.h>
#endif
#if __has_include(<linux/interrupt.h>)
#include <linux/interrupt.h>
#endif
#if __has_include(<linux/timer.h>)
#include <linux/timer.h>
#endif
#if __has_include(<linux/bitops.h>)
#include <linux/bitops.h>
#endif
#if __has_include(<linux/jump_label.h>)
#include <linux/jump_label.h>
#endif
#if __has_include(<linux/percpu.h>)
#include <linux/percpu.h>
#endif
#if __has_include(<linux/bits.h>)
#include <linux/bits.h>
#endif
#if __has_include(<linux/bitfield.h>)
#include <linux/bitfield.h>
#endif
#if __has_include(<linux/math.h>)
#include <linux/math.h>
#endif
#if __has_include(<linux/minmax.h>)
#include <linux/minmax.h>
#endif
#if __has_include(<linux/jiffies.h>)
#include <linux/jiffies.h>
#endif
#if __has_include(<linux/completion.h>)
#include <linux/completion.h>
#endif
#if __has_include(<linux/workqueue.h>)
#include <linux/workqueue.h>
#endif
#if __has_include(<linux/kthread.h>)
#include <linux/kthread.h>
#endif
#if __has_include(<linux/rwsem.h>)
#include <linux/rwsem.h>
#endif
#if __has_include(<linux/rwlock_types.h>)
#include <linux/rwlock_types.h>
#endif
#if __has_include(<linux/semaphore.h>)
#include <linux/semaphore.h>
#endif
#if __has_include(<linux/atomic.h>)
#include <linux/atomic.h>
#endif
#if __has_include(<linux/refcount.h>)
#include <linux/refcount.h>
#endif
#if __has_include(<linux/rcupdate.h>)
#include <linux/rcupdate.h>
#endif
#if __has_include(<linux/nospec.h>)
#include <linux/nospec.h>
#endif
#if __has_include(<linux/irqflags.h>)
#include <linux/irqflags.h>
#endif
#if __has_include(<linux/sched.h>)
#include <linux/sched.h>
#endif
#if __has_include(<linux/delay.h>)
#include <linux/delay.h>
#endif
#if __has_include(<linux/kfifo.h>)
#include <linux/kfifo.h>
#endif
#if __has_include(<linux/ioctl.h>)
#include <linux/ioctl.h>
#endif
#if __has_include(<linux/smp.h>)
#include <linux/smp.h>
#endif
#endif

#ifdef __has_include
#if __has_include(<linux/spinlock.h>)
/* What waiting does with a lock that is held. */
static inline void nalvegop_give_and_take(spinlock_t *lock)
{
	spin_unlock(lock);
	spin_lock(lock);
}
/* What is done with a queue under a lock. */
static inline void nalvegop_take_and_give(spinlock_t *lock)
{
	spin_lock(lock);
	spin_unlock(lock);
}
#endif
#endif

/* Spin locks: the state of interrupts is not kept. */
#undef spin_lock
#undef spin_unlock
#undef spin_trylock
#undef spin_lock_irq
#undef spin_unlock_irq
#undef spin_lock_bh
#undef spin_unlock_bh
#undef spin_lock_irqsave
#undef spin_unlock_irqrestore
#undef spin_trylock_irqsave
#undef spin_trylock_irq
#undef spin_trylock_bh
#undef spin_lock_nested
#undef spin_lock_irqsave_nested
#undef raw_spin_lock
#undef raw_spin_unlock
#undef raw_spin_lock_irq
#undef raw_spin_unlock_irq
#undef raw_spin_lock_irqsave
#undef raw_spin_unlock_irqrestore
#undef raw_spin_trylock
#undef spin_lock_init
#undef raw_spin_lock_init
#undef assert_spin_locked
#define spin_lock_irq(l) spin_lock(l)
#define spin_unlock_irq(l) spin_unlock(l)
#define spin_lock_bh(l) spin_lock(l)
#define spin_unlock_bh(l) spin_unlock(l)
#define spin_lock_irqsave(l, f) ((f) = 0, spin_lock(l))
#define spin_unlock_irqrestore(l, f) ((void)(f), spin_unlock(l))
#define spin_trylock_irqsave(l, f) ((f) = 0, spin_trylock(l))
#define spin_trylock_irq(l) spin_trylock(l)
#define spin_trylock_bh(l) spin_trylock(l)
#define spin_lock_nested(l, c) ((void)(c), spin_lock(l))
#define spin_lock_irqsave_nested(l, f, c) ((f) = 0, (void)(c), spin_lock(l))
#define raw_spin_lock(l) spin_lock(l)
#define raw_spin_unlock(l) spin_unlock(l)
#define raw_spin_lock_irq(l) spin_lock(l)
#define raw_spin_unlock_irq(l) spin_unlock(l)
#define raw_spin_lock_irqsave(l, f) ((f) = 0, spin_lock(l))
#define raw_spin_unlock_irqrestore(l, f) ((void)(f), spin_unlock(l))
#define raw_spin_trylock(l) spin_trylock(l)
#define spin_lock_init(l) ((void)(l))
#define raw_spin_lock_init(l) ((void)(l))
#define assert_spin_locked(l) ((void)(l))

/* Mutexes: one that is interrupted is not taken. */
#undef mutex_lock
#undef mutex_lock_nested
#undef mutex_lock_io
#undef mutex_lock_interruptible
#undef mutex_lock_killable
#undef mutex_lock_interruptible_nested
#undef mutex_init
#undef mutex_destroy
#undef DEFINE_MUTEX
#undef DEFINE_SPINLOCK
#define mutex_lock_nested(l, c) ((void)(c), mutex_lock(l))
#define mutex_lock_io(l) mutex_lock(l)
#define mutex_lock_interruptible(l) (nalvegop_more() ? -4 : (mutex_lock(l), 0))
#define mutex_lock_killable(l) (nalvegop_more() ? -4 : (mutex_lock(l), 0))
#define mutex_lock_interruptible_nested(l, c) ((void)(c), nalvegop_more() ? -4 : (mutex_lock(l), 0))
#define mutex_init(l) ((void)(l))
#define mutex_destroy(l) ((void)(l))
#define DEFINE_MUTEX(n) struct mutex n
#define DEFINE_SPINLOCK(n) spinlock_t n
#undef mutex_unlock
#undef mutex_trylock
#undef mutex_lock_killable_nested
#define mutex_lock_killable_nested(l, c) ((void)(c), nalvegop_more() ? -4 : (mutex_lock(l), 0))

/* Read and write locks: several readers may hold one, so readers are not followed. */
#undef read_lock
#undef read_unlock
#undef write_lock
#undef write_unlock
#undef read_lock_irqsave
#undef read_unlock_irqrestore
#undef read_lock_irq
#undef read_unlock_irq
#undef read_lock_bh
#undef read_unlock_bh
#undef write_lock_irqsave
#undef write_unlock_irqrestore
#undef write_lock_irq
#undef write_unlock_irq
#undef write_lock_bh
#undef write_unlock_bh
#undef down_read
#undef up_read
#undef down_write
#undef up_write
#define read_lock(l) ((void)(l))
#define read_unlock(l) ((void)(l))
#define read_lock_irqsave(l, f) ((f) = 0, (void)(l))
#define read_unlock_irqrestore(l, f) ((void)(f), (void)(l))
#define read_lock_irq(l) ((void)(l))
#define read_unlock_irq(l) ((void)(l))
#define read_lock_bh(l) ((void)(l))
#define read_unlock_bh(l) ((void)(l))
#define write_lock(l) spin_lock(l)
#define write_unlock(l) spin_unlock(l)
#define write_lock_irqsave(l, f) ((f) = 0, spin_lock(l))
#define write_unlock_irqrestore(l, f) ((void)(f), spin_unlock(l))
#define write_lock_irq(l) spin_lock(l)
#define write_unlock_irq(l) spin_unlock(l)
#define write_lock_bh(l) spin_lock(l)
#define write_unlock_bh(l) spin_unlock(l)
#define down_read(l) ((void)(l))
#define up_read(l) ((void)(l))
#define down_write(l) mutex_lock(l)
#define up_write(l) mutex_unlock(l)
#undef read_trylock
#undef write_trylock
#undef down_read_nested
#undef down_read_trylock
#undef down_read_interruptible
#undef down_read_killable
#undef down_write_nested
#undef down_write_trylock
#undef down_write_killable
#undef downgrade_write
#define read_trylock(l) ((void)(l), nalvegop_more())
#define write_trylock(l) spin_trylock(l)
#define down_read_nested(l, c) ((void)(c), (void)(l))
#define down_read_trylock(l) ((void)(l), nalvegop_more())
#define down_read_interruptible(l) ((void)(l), nalvegop_int())
#define down_read_killable(l) ((void)(l), nalvegop_int())
#define down_write_nested(l, c) ((void)(c), mutex_lock(l))
#define down_write_trylock(l) mutex_trylock(l)
#define down_write_killable(l) (nalvegop_more() ? -4 : (mutex_lock(l), 0))
#define downgrade_write(l) mutex_unlock(l)

/* Counts that take a lock when they fall to 0. */
#undef atomic_dec_and_lock
#undef refcount_dec_and_lock
#undef refcount_dec_and_mutex_lock
#define atomic_dec_and_lock(a, l) ((void)(a), nalvegop_more() ? (spin_lock(l), 1) : 0)
#define refcount_dec_and_lock(a, l) ((void)(a), nalvegop_more() ? (spin_lock(l), 1) : 0)
#define refcount_dec_and_mutex_lock(a, l) ((void)(a), nalvegop_more() ? (mutex_lock(l), 1) : 0)
#undef atomic_dec_and_lock_irqsave
#undef atomic_dec_and_mutex_lock
#undef refcount_dec_and_lock_irqsave
#undef kref_put
#undef kref_put_mutex
#undef kref_put_lock
#define atomic_dec_and_lock_irqsave(a, l, f) ((void)(a), (f) = 0, nalvegop_more() ? (spin_lock(l), 1) : 0)
#define atomic_dec_and_mutex_lock(a, l) ((void)(a), nalvegop_more() ? (mutex_lock(l), 1) : 0)
#define refcount_dec_and_lock_irqsave(a, l, f) ((void)(a), (f) = 0, nalvegop_more() ? (spin_lock(l), 1) : 0)
#define kref_put(k, f) (nalvegop_more() ? (f(k), 1) : 0)
#define kref_put_mutex(k, f, l) (nalvegop_more() ? (mutex_lock(l), f(k), 1) : 0)
#define kref_put_lock(k, f, l) (nalvegop_more() ? (spin_lock(l), f(k), 1) : 0)

/* Allocation: two families of one freeing function are not told apart. */
#undef kmalloc
#undef kzalloc
#undef kfree
#undef kmalloc_array
#undef kcalloc
#undef kmalloc_node
#undef kzalloc_node
#undef kvmalloc
#undef kvzalloc
#undef kvmalloc_array
#undef kvcalloc
#undef vmalloc
#undef vzalloc
#undef kmemdup
#undef kstrdup
#undef kstrndup
#undef kasprintf
#undef memdup_user
#undef memdup_user_nul
#undef kmem_cache_alloc
#undef kmem_cache_zalloc
#undef kmem_cache_free
#undef kvfree
#undef vfree
#undef kfree_sensitive
#undef kfree_rcu
#undef kfree_const
#define kmalloc_array(n, s, f) kmalloc((n) * (s), f)
#define kcalloc(n, s, f) kzalloc((n) * (s), f)
#define kmalloc_node(s, f, n) kmalloc(((void)(n), (s)), f)
#define kzalloc_node(s, f, n) kzalloc(((void)(n), (s)), f)
#define kvmalloc(s, f) kmalloc(s, f)
#define kvzalloc(s, f) kzalloc(s, f)
#define kvmalloc_array(n, s, f) kmalloc((n) * (s), f)
#define kvcalloc(n, s, f) kzalloc((n) * (s), f)
#define vmalloc(s) kmalloc(s, 0)
#define vzalloc(s) kzalloc(s, 0)
#define kmemdup(p, s, f) kmalloc(((void)(p), (s)), f)
#define kstrdup(p, f) kmalloc(((void)(p), 1), f)
#define kstrndup(p, n, f) kmalloc(((void)(p), (n)), f)
#define kasprintf(f, ...) kmalloc(((void)(__VA_ARGS__), 1), f)
#define memdup_user(p, n) kmalloc(((void)(p), (n)), 0)
#define memdup_user_nul(p, n) kmalloc(((void)(p), (n)), 0)
#define kmem_cache_alloc(c, f) kmalloc(((void)(c), 1), f)
#define kmem_cache_zalloc(c, f) kzalloc(((void)(c), 1), f)
#define kmem_cache_free(c, p) ((void)(c), kfree(p))
#define kvfree(p) kfree(p)
#define vfree(p) kfree(p)
#define kfree_sensitive(p) kfree(p)
#define kfree_rcu(p, ...) kfree(p)
#define kfree_const(p) ((void)(p))
#undef krealloc
#undef kmemdup_nul
#undef kvasprintf
#undef vmalloc_user
#undef vmemdup_user
#undef strndup_user
#define krealloc(p, s, f) nalvegop_realloc((p), ((void)(f), (s)))
#define kmemdup_nul(p, s, f) kmalloc(((void)(p), (s)), f)
#define kvasprintf(f, ...) kmalloc(((void)(__VA_ARGS__), 1), f)
#define vmalloc_user(s) kzalloc(s, 0)
#define vmemdup_user(p, n) kmalloc(((void)(p), (n)), 0)
#define strndup_user(p, n) kmalloc(((void)(p), (n)), 0)

/* Error pointers: null and an error are one. */
#undef IS_ERR
#undef IS_ERR_OR_NULL
#undef ERR_PTR
#undef PTR_ERR
#undef PTR_ERR_OR_ZERO
#undef ERR_CAST
#define IS_ERR(p) (!(p))
#define IS_ERR_OR_NULL(p) (!(p))
#define ERR_PTR(e) ((void)(e), (void *)0)
#define PTR_ERR(p) ((void)(p), -12L)
#define PTR_ERR_OR_ZERO(p) ((p) ? 0 : -12)
#define ERR_CAST(p) ((void)(p), (void *)0)

/* The object round a member is another one each time: a lock that is left through one and taken through another is
   reported falsely. */
#undef container_of
#undef list_entry
#undef hlist_entry
#undef rb_entry
#undef from_timer
#define container_of(p, t, m) ((t *)nalvegop_object(p))
#define list_entry(p, t, m) ((t *)nalvegop_object(p))
#define hlist_entry(p, t, m) ((t *)nalvegop_object(p))
#define rb_entry(p, t, m) ((t *)nalvegop_object(p))
#define from_timer(v, p, m) (nalvegop_object(p))
#undef list_prepare_entry
#define list_prepare_entry(p, h, m) (nalvegop_object(p))
#undef list_last_entry
#undef list_next_entry
#undef list_prev_entry
#undef hlist_entry_safe
#undef rb_entry_safe
#define list_last_entry(h, t, m) ((t *)nalvegop_object(h))
#define list_next_entry(p, m) (nalvegop_object(p))
#define list_prev_entry(p, m) (nalvegop_object(p))
#define hlist_entry_safe(p, t, m) ((t *)nalvegop_object(p))
#define rb_entry_safe(p, t, m) ((t *)nalvegop_object(p))

/* Lists: which entries there are is not followed. */
#undef list_for_each_entry
#undef list_for_each_entry_safe
#undef list_for_each_entry_reverse
#undef list_for_each_entry_rcu
#undef hlist_for_each_entry
#undef list_add
#undef list_add_tail
#undef list_del
#undef list_del_init
#undef list_move
#undef list_move_tail
#undef list_empty
#undef list_first_entry
#undef list_first_entry_or_null
#undef INIT_LIST_HEAD
#define list_for_each_entry(p, h, m) for (p = nalvegop_entry(); nalvegop_more(); p = nalvegop_entry())
#define list_for_each_entry_reverse(p, h, m) for (p = nalvegop_entry(); nalvegop_more(); p = nalvegop_entry())
#define list_for_each_entry_rcu(p, h, m, ...) for (p = nalvegop_entry(); nalvegop_more(); p = nalvegop_entry())
#define hlist_for_each_entry(p, h, m) for (p = nalvegop_entry(); nalvegop_more(); p = nalvegop_entry())
#define list_for_each_entry_safe(p, n, h, m) \
	for (p = nalvegop_entry(), n = nalvegop_entry(); nalvegop_more(); p = n, n = nalvegop_entry())
#define list_add(n, h) (nalvegop_use(n), (void)(h))
#define list_add_tail(n, h) (nalvegop_use(n), (void)(h))
#define list_del(n) ((void)(n))
#define list_del_init(n) ((void)(n))
#define list_move(n, h) (nalvegop_use(n), (void)(h))
#define list_move_tail(n, h) (nalvegop_use(n), (void)(h))
#define list_empty(h) ((void)(h), nalvegop_more())
#define list_first_entry(h, t, m) ((t *)nalvegop_object(h))
#define list_first_entry_or_null(h, t, m) ((t *)nalvegop_object(h))
#define INIT_LIST_HEAD(h) ((void)(h))
#undef list_for_each
#undef list_for_each_safe
#undef list_for_each_entry_continue
#undef list_for_each_entry_from
#undef list_for_each_entry_safe_reverse
#undef hlist_for_each_entry_rcu
#undef hlist_for_each_entry_safe
#undef list_add_rcu
#undef list_add_tail_rcu
#undef list_del_rcu
#undef list_replace
#undef list_splice
#undef list_splice_init
#undef list_splice_tail_init
#undef list_empty_careful
#undef list_is_singular
#undef hlist_add_head
#undef hlist_add_head_rcu
#undef hlist_del
#undef hlist_del_init
#undef hlist_empty
#undef INIT_HLIST_NODE
#define list_for_each(p, h) for (p = nalvegop_entry(); nalvegop_more(); p = nalvegop_entry())
#define list_for_each_safe(p, n, h) for (p = nalvegop_entry(), n = nalvegop_entry(); nalvegop_more(); p = n, n = nalvegop_entry())
#define list_for_each_entry_continue(p, h, m) for (; nalvegop_more(); p = nalvegop_entry())
#define list_for_each_entry_from(p, h, m) for (; nalvegop_more(); p = nalvegop_entry())
#define list_for_each_entry_safe_reverse(p, n, h, m) for (p = nalvegop_entry(), n = nalvegop_entry(); nalvegop_more(); p = n, n = nalvegop_entry())
#define hlist_for_each_entry_rcu(p, h, m, ...) for (p = nalvegop_entry(); nalvegop_more(); p = nalvegop_entry())
#define hlist_for_each_entry_safe(p, n, h, m) for (p = nalvegop_entry(), (n) = nalvegop_entry(); nalvegop_more(); p = nalvegop_entry())
#define list_add_rcu(n, h) (nalvegop_use(n), (void)(h))
#define list_add_tail_rcu(n, h) (nalvegop_use(n), (void)(h))
#define list_del_rcu(n) ((void)(n))
#define list_replace(o, n) ((void)(o), nalvegop_use(n))
#define list_splice(l, h) ((void)(l), (void)(h))
#define list_splice_init(l, h) ((void)(l), (void)(h))
#define list_splice_tail_init(l, h) ((void)(l), (void)(h))
#define list_empty_careful(h) ((void)(h), nalvegop_more())
#define list_is_singular(h) ((void)(h), nalvegop_more())
#define hlist_add_head(n, h) (nalvegop_use(n), (void)(h))
#define hlist_add_head_rcu(n, h) (nalvegop_use(n), (void)(h))
#define hlist_del(n) ((void)(n))
#define hlist_del_init(n) ((void)(n))
#define hlist_empty(h) ((void)(h), nalvegop_more())
#define INIT_HLIST_NODE(n) ((void)(n))

/* A branch that the kernel rewrites in its own code goes either way, and its key is not looked at. What each processor has
   of a variable is one variable. */
#undef static_branch_likely
#undef static_branch_unlikely
#undef static_branch_enable
#undef static_branch_disable
#undef static_branch_inc
#undef static_branch_dec
#undef this_cpu_ptr
#undef raw_cpu_ptr
#undef per_cpu_ptr
#define static_branch_likely(x) nalvegop_more()
#define static_branch_unlikely(x) nalvegop_more()
#define static_branch_enable(x) ((void)0)
#define static_branch_disable(x) ((void)0)
#define static_branch_inc(x) ((void)0)
#define static_branch_dec(x) ((void)0)
#define this_cpu_ptr(p) (p)
#define raw_cpu_ptr(p) (p)
#define per_cpu_ptr(p, c) ((void)(c), (p))

/* One thread is followed: what others see, and when, is not. */
#undef READ_ONCE
#undef WRITE_ONCE
#undef rcu_dereference
#undef rcu_assign_pointer
#undef smp_mb
#undef smp_rmb
#undef smp_wmb
#undef barrier
#undef mb
#undef smp_load_acquire
#undef smp_store_release
#define READ_ONCE(x) (x)
#define WRITE_ONCE(x, v) ((x) = (v))
#define rcu_dereference(p) (p)
#define rcu_assign_pointer(p, v) ((p) = (v))
#define smp_mb() ((void)0)
#define smp_rmb() ((void)0)
#define smp_wmb() ((void)0)
#define barrier() ((void)0)
#define mb() ((void)0)
#define smp_load_acquire(p) (*(p))
#define smp_store_release(p, v) (*(p) = (v))
#undef rcu_dereference_protected
#undef rcu_dereference_check
#undef rcu_dereference_raw
#undef rcu_access_pointer
#undef RCU_INIT_POINTER
#undef rmb
#undef wmb
#undef smp_mb__before_atomic
#undef smp_mb__after_atomic
#undef cpu_relax
#undef smp_processor_id
#undef raw_smp_processor_id
#undef get_cpu
#undef put_cpu
#undef local_irq_save
#undef local_irq_restore
#define rcu_dereference_protected(p, c) (p)
#define rcu_dereference_check(p, c) (p)
#define rcu_dereference_raw(p) (p)
#define rcu_access_pointer(p) (p)
#define RCU_INIT_POINTER(p, v) ((p) = (v))
#define rmb() ((void)0)
#define wmb() ((void)0)
#define smp_mb__before_atomic() ((void)0)
#define smp_mb__after_atomic() ((void)0)
#define cpu_relax() ((void)0)
#define smp_processor_id() nalvegop_int()
#define raw_smp_processor_id() nalvegop_int()
#define get_cpu() nalvegop_int()
#define put_cpu() ((void)0)
#define local_irq_save(f) ((f) = 0)
#define local_irq_restore(f) ((void)(f))

/* Atomic numbers: one thread is followed. */
#undef atomic_read
#undef atomic_set
#undef atomic_inc
#undef atomic_dec
#undef atomic_add
#undef atomic_sub
#undef atomic_inc_return
#undef atomic_dec_return
#undef atomic_add_return
#undef atomic_sub_return
#undef atomic_dec_and_test
#undef atomic_inc_and_test
#undef atomic_sub_and_test
#define atomic_read(v) ((v)->counter)
#define atomic_set(v, i) ((void)((v)->counter = (i)))
#define atomic_inc(v) ((void)++(v)->counter)
#define atomic_dec(v) ((void)--(v)->counter)
#define atomic_add(i, v) ((void)((v)->counter += (i)))
#define atomic_sub(i, v) ((void)((v)->counter -= (i)))
#define atomic_inc_return(v) (++(v)->counter)
#define atomic_dec_return(v) (--(v)->counter)
#define atomic_add_return(i, v) ((v)->counter += (i))
#define atomic_sub_return(i, v) ((v)->counter -= (i))
#define atomic_dec_and_test(v) (--(v)->counter == 0)
#define atomic_inc_and_test(v) (++(v)->counter == 0)
#define atomic_sub_and_test(i, v) (((v)->counter -= (i)) == 0)
/* Whether it succeeds is not known, and what is stored is not followed. */
#undef try_cmpxchg
#undef try_cmpxchg_acquire
#undef try_cmpxchg_release
#undef try_cmpxchg_relaxed
#define try_cmpxchg(p, o, n) ((void)(p), (void)(o), (void)(n), nalvegop_more())
#define try_cmpxchg_acquire(p, o, n) ((void)(p), (void)(o), (void)(n), nalvegop_more())
#define try_cmpxchg_release(p, o, n) ((void)(p), (void)(o), (void)(n), nalvegop_more())
#define try_cmpxchg_relaxed(p, o, n) ((void)(p), (void)(o), (void)(n), nalvegop_more())

/* Numbers: right from LONG_MIN to LONG_MAX. */
#undef min
#undef max
#undef min_t
#undef max_t
#undef clamp
#undef clamp_t
#undef clamp_val
#undef PTR_ALIGN
#undef PTR_ALIGN_DOWN
#undef ARRAY_SIZE
#undef struct_size
#define min(a, b) nalvegop_min((a), (b))
#define max(a, b) nalvegop_max((a), (b))
#define min_t(t, a, b) ((t)nalvegop_min((a), (b)))
#define max_t(t, a, b) ((t)nalvegop_max((a), (b)))
#define clamp(v, a, b) nalvegop_clamp((v), (a), (b))
#define clamp_t(t, v, a, b) ((t)nalvegop_clamp((v), (a), (b)))
#define clamp_val(v, a, b) nalvegop_clamp((v), (a), (b))
/* (where it lies in the object is not followed) */
#define PTR_ALIGN(p, a) ((void)(a), nalvegop_object(p))
#define PTR_ALIGN_DOWN(p, a) ((void)(a), nalvegop_object(p))
#define ARRAY_SIZE(a) (sizeof(a) / sizeof((a)[0]))
#define struct_size(p, m, n) (sizeof(*(p)) + sizeof((p)->m[0]) * (n))
#undef min3
#undef max3
#undef abs
#undef roundup
#undef round_up
#undef rounddown
#undef round_down
#undef DIV_ROUND_CLOSEST
#undef do_div
#undef array_index_nospec
#undef time_after
#undef time_before
#undef time_after_eq
#undef time_before_eq
#define min3(a, b, c) nalvegop_min((a), nalvegop_min((b), (c)))
#define max3(a, b, c) nalvegop_max((a), nalvegop_max((b), (c)))
#define abs(x) nalvegop_abs(x)
#define roundup(x, n) nalvegop_roundup((x), (n))
#define round_up(x, n) nalvegop_roundup((x), (n))
#define rounddown(x, n) nalvegop_rounddown((x), (n))
#define round_down(x, n) nalvegop_rounddown((x), (n))
#define DIV_ROUND_CLOSEST(x, n) nalvegop_nearest((x), (n))
#define do_div(x, n) ((x) /= (n), nalvegop_uint())
#define array_index_nospec(i, n) ((void)(n), (i))
#define time_after(a, b) ((long)((b) - (a)) < 0)
#define time_before(a, b) ((long)((a) - (b)) < 0)
#define time_after_eq(a, b) ((long)((a) - (b)) >= 0)
#define time_before_eq(a, b) ((long)((b) - (a)) >= 0)

/* Bits: those from 32 on are taken for the ones below. */
#undef test_bit
#undef set_bit
#undef clear_bit
#undef change_bit
#undef __set_bit
#undef __clear_bit
#undef test_and_set_bit
#undef test_and_clear_bit
#undef __test_and_set_bit
#undef __test_and_clear_bit
#undef GENMASK
#undef FIELD_PREP
#undef FIELD_GET
#define test_bit(n, a) ((*(a) & (1UL << ((n) & 31))) != 0)
#define set_bit(n, a) ((void)(*(a) |= 1UL << ((n) & 31)))
#define clear_bit(n, a) ((void)(*(a) &= ~(1UL << ((n) & 31))))
#define change_bit(n, a) ((void)(*(a) ^= 1UL << ((n) & 31)))
#define __set_bit(n, a) ((void)(*(a) |= 1UL << ((n) & 31)))
#define __clear_bit(n, a) ((void)(*(a) &= ~(1UL << ((n) & 31))))
#define test_and_set_bit(n, a) (nalvegop_set_bit((n), (a)))
#define test_and_clear_bit(n, a) (nalvegop_clear_bit((n), (a)))
#define __test_and_set_bit(n, a) (nalvegop_set_bit((n), (a)))
#define __test_and_clear_bit(n, a) (nalvegop_clear_bit((n), (a)))
#define GENMASK(h, l) __GENMASK(h, l)
#define FIELD_PREP(m, v) nalvegop_field_prep((m), (v))
#define FIELD_GET(m, v) nalvegop_field_get((m), (v))

/* Printing: what is printed does not get away. */
#undef printk
#undef pr_emerg
#undef pr_alert
#undef pr_crit
#undef pr_err
#undef pr_warn
#undef pr_notice
#undef pr_info
#undef pr_debug
#undef pr_cont
#undef dev_err
#undef dev_warn
#undef dev_info
#undef dev_dbg
#undef dev_notice
#define printk(...) ((void)(__VA_ARGS__), 0)
#define pr_emerg(...) ((void)(__VA_ARGS__), 0)
#define pr_alert(...) ((void)(__VA_ARGS__), 0)
#define pr_crit(...) ((void)(__VA_ARGS__), 0)
#define pr_err(...) ((void)(__VA_ARGS__), 0)
#define pr_warn(...) ((void)(__VA_ARGS__), 0)
#define pr_notice(...) ((void)(__VA_ARGS__), 0)
#define pr_info(...) ((void)(__VA_ARGS__), 0)
#define pr_debug(...) ((void)(__VA_ARGS__), 0)
#define pr_cont(...) ((void)(__VA_ARGS__), 0)
#define dev_err(...) ((void)(__VA_ARGS__))
#define dev_warn(...) ((void)(__VA_ARGS__))
#define dev_info(...) ((void)(__VA_ARGS__))
#define dev_dbg(...) ((void)(__VA_ARGS__))
#define dev_notice(...) ((void)(__VA_ARGS__))
#undef pr_emerg_ratelimited
#undef pr_emerg_once
#undef pr_alert_ratelimited
#undef pr_alert_once
#undef pr_crit_ratelimited
#undef pr_crit_once
#undef pr_err_ratelimited
#undef pr_err_once
#undef pr_warn_ratelimited
#undef pr_warn_once
#undef pr_notice_ratelimited
#undef pr_notice_once
#undef pr_info_ratelimited
#undef pr_info_once
#undef pr_debug_ratelimited
#undef pr_debug_once
#undef dev_emerg_ratelimited
#undef dev_emerg_once
#undef dev_alert_ratelimited
#undef dev_alert_once
#undef dev_crit_ratelimited
#undef dev_crit_once
#undef dev_err_ratelimited
#undef dev_err_once
#undef dev_warn_ratelimited
#undef dev_warn_once
#undef dev_notice_ratelimited
#undef dev_notice_once
#undef dev_info_ratelimited
#undef dev_info_once
#undef dev_dbg_ratelimited
#undef dev_dbg_once
#undef dev_emerg
#undef dev_alert
#undef dev_crit
#undef dev_printk
#undef printk_ratelimited
#undef printk_once
#undef pr_devel
#undef dev_err_probe
#define pr_emerg_ratelimited(...) ((void)(__VA_ARGS__), 0)
#define pr_emerg_once(...) ((void)(__VA_ARGS__), 0)
#define pr_alert_ratelimited(...) ((void)(__VA_ARGS__), 0)
#define pr_alert_once(...) ((void)(__VA_ARGS__), 0)
#define pr_crit_ratelimited(...) ((void)(__VA_ARGS__), 0)
#define pr_crit_once(...) ((void)(__VA_ARGS__), 0)
#define pr_err_ratelimited(...) ((void)(__VA_ARGS__), 0)
#define pr_err_once(...) ((void)(__VA_ARGS__), 0)
#define pr_warn_ratelimited(...) ((void)(__VA_ARGS__), 0)
#define pr_warn_once(...) ((void)(__VA_ARGS__), 0)
#define pr_notice_ratelimited(...) ((void)(__VA_ARGS__), 0)
#define pr_notice_once(...) ((void)(__VA_ARGS__), 0)
#define pr_info_ratelimited(...) ((void)(__VA_ARGS__), 0)
#define pr_info_once(...) ((void)(__VA_ARGS__), 0)
#define pr_debug_ratelimited(...) ((void)(__VA_ARGS__), 0)
#define pr_debug_once(...) ((void)(__VA_ARGS__), 0)
#define dev_emerg_ratelimited(...) ((void)(__VA_ARGS__))
#define dev_emerg_once(...) ((void)(__VA_ARGS__))
#define dev_alert_ratelimited(...) ((void)(__VA_ARGS__))
#define dev_alert_once(...) ((void)(__VA_ARGS__))
#define dev_crit_ratelimited(...) ((void)(__VA_ARGS__))
#define dev_crit_once(...) ((void)(__VA_ARGS__))
#define dev_err_ratelimited(...) ((void)(__VA_ARGS__))
#define dev_err_once(...) ((void)(__VA_ARGS__))
#define dev_warn_ratelimited(...) ((void)(__VA_ARGS__))
#define dev_warn_once(...) ((void)(__VA_ARGS__))
#define dev_notice_ratelimited(...) ((void)(__VA_ARGS__))
#define dev_notice_once(...) ((void)(__VA_ARGS__))
#define dev_info_ratelimited(...) ((void)(__VA_ARGS__))
#define dev_info_once(...) ((void)(__VA_ARGS__))
#define dev_dbg_ratelimited(...) ((void)(__VA_ARGS__))
#define dev_dbg_once(...) ((void)(__VA_ARGS__))
#define dev_emerg(...) ((void)(__VA_ARGS__))
#define dev_alert(...) ((void)(__VA_ARGS__))
#define dev_crit(...) ((void)(__VA_ARGS__))
#define dev_printk(...) ((void)(__VA_ARGS__))
#define printk_ratelimited(...) ((void)(__VA_ARGS__), 0)
#define printk_once(...) ((void)(__VA_ARGS__), 0)
#define pr_devel(...) ((void)(__VA_ARGS__), 0)
#define dev_err_probe(d, e, ...) ((void)(d), (void)(__VA_ARGS__), (e))

/* Bugs end the run; warnings do not. */
#undef BUG
#undef BUG_ON
#undef WARN
#undef WARN_ON
#undef WARN_ON_ONCE
#undef WARN_ONCE
#undef likely
#undef unlikely
#undef lockdep_assert_held
#undef might_sleep
#define BUG() panic("")
#define BUG_ON(c) ((c) ? panic("") : (void)0)
#define WARN(c, ...) (!!(c))
#define WARN_ON(c) (!!(c))
#define WARN_ON_ONCE(c) (!!(c))
#define WARN_ONCE(c, ...) (!!(c))
#define likely(x) (!!(x))
#define unlikely(x) (!!(x))
#define lockdep_assert_held(l) ((void)(l))
#define might_sleep() ((void)0)
#undef WARN_TAINT
#undef lockdep_assert_held_write
#undef lockdep_assert_held_read
#undef lockdep_assert_held_once
#undef lockdep_assert_not_held
#undef might_lock
#undef BUILD_BUG_ON
#undef BUILD_BUG_ON_MSG
#undef BUILD_BUG_ON_ZERO
#define WARN_TAINT(c, ...) (!!(c))
#define lockdep_assert_held_write(l) ((void)(l))
#define lockdep_assert_held_read(l) ((void)(l))
#define lockdep_assert_held_once(l) ((void)(l))
#define lockdep_assert_not_held(l) ((void)(l))
#define might_lock(l) ((void)(l))
#define BUILD_BUG_ON(c) ((void)0)
#define BUILD_BUG_ON_MSG(c, m) ((void)0)
#define BUILD_BUG_ON_ZERO(c) (0)

/* Waiting: nothing is known of the condition behind it. */
#undef wait_event
#undef wait_event_interruptible
#undef wait_event_timeout
#undef wait_event_interruptible_timeout
#undef wake_up
#undef wake_up_all
#undef wake_up_interruptible
#undef init_waitqueue_head
#define wait_event(q, c) ((void)(c))
#define wait_event_interruptible(q, c) ((c) ? 0 : nalvegop_int())
#define wait_event_timeout(q, c, t) ((void)(c), (void)(t), (long)nalvegop_int())
#define wait_event_interruptible_timeout(q, c, t) ((void)(c), (void)(t), (long)nalvegop_int())
#define wake_up(q) ((void)(q))
#define wake_up_all(q) ((void)(q))
#define wake_up_interruptible(q) ((void)(q))
#define init_waitqueue_head(q) ((void)(q))
#undef wait_event_killable
#undef wait_event_killable_timeout
#undef wait_event_freezable
#undef wait_event_lock_irq
#undef wait_event_interruptible_lock_irq
#undef wake_up_interruptible_all
#undef wake_up_interruptible_sync
#undef wake_up_poll
#undef wake_up_interruptible_poll
#undef DECLARE_WAITQUEUE
#undef DEFINE_WAIT
#undef DEFINE_WAIT_FUNC
#undef DECLARE_WAIT_QUEUE_HEAD_ONSTACK
#undef DECLARE_COMPLETION_ONSTACK
#undef INIT_WORK
#undef INIT_DELAYED_WORK
#undef timer_setup
#undef kthread_run
#undef class_create
#undef class_register
#define wait_event_killable(q, c) ((c) ? 0 : nalvegop_int())
#define wait_event_killable_timeout(q, c, t) ((void)(c), (void)(t), (long)nalvegop_int())
#define wait_event_freezable(q, c) ((c) ? 0 : nalvegop_int())
#define wait_event_lock_irq(q, c, l) (nalvegop_give_and_take(&(l)), (void)(c))
#define wait_event_interruptible_lock_irq(q, c, l) (nalvegop_give_and_take(&(l)), (void)(c), nalvegop_int())
#define wake_up_interruptible_all(q) ((void)(q))
#define wake_up_interruptible_sync(q) ((void)(q))
#define wake_up_poll(q, m) ((void)(q), (void)(m))
#define wake_up_interruptible_poll(q, m) ((void)(q), (void)(m))
#define DECLARE_WAITQUEUE(n, t) struct wait_queue_entry n
#define DEFINE_WAIT(n) struct wait_queue_entry n
#define DEFINE_WAIT_FUNC(n, f) struct wait_queue_entry n
#define DECLARE_WAIT_QUEUE_HEAD_ONSTACK(n) struct wait_queue_head n
#define DECLARE_COMPLETION_ONSTACK(n) struct completion n
#define INIT_WORK(w, f) ((void)((w)->func = (f)))
#define INIT_DELAYED_WORK(w, f) ((void)((w)->work.func = (f)))
#define timer_setup(t, f, g) ((void)((t)->function = (f)), (void)(g))
#define kthread_run(f, d, ...) nalvegop_made(d)
#define class_create(...) nalvegop_made((void *)0)
#define class_register(c) (nalvegop_use(c), nalvegop_int())

/* Memory of the user, and of devices: its contents are not known. */
#undef get_user
#undef put_user
#undef copy_from_user
#undef copy_to_user
#undef readb
#undef readw
#undef readl
#undef writeb
#undef writew
#undef writel
#define get_user(x, p) ((void)(p), (x) = nalvegop_int(), nalvegop_int())
#define put_user(x, p) ((void)(x), (void)(p), nalvegop_int())
#define copy_from_user(d, s, n) ((void)(d), (void)(s), (void)(n), (unsigned long)nalvegop_uint())
#define copy_to_user(d, s, n) ((void)(d), (void)(s), (void)(n), (unsigned long)nalvegop_uint())
#define readb(a) ((void)(a), (unsigned char)nalvegop_uint())
#define readw(a) ((void)(a), (unsigned short)nalvegop_uint())
#define readl(a) ((void)(a), nalvegop_uint())
#define writeb(v, a) ((void)(v), (void)(a))
#define writew(v, a) ((void)(v), (void)(a))
#define writel(v, a) ((void)(v), (void)(a))
#undef __get_user
#undef __put_user
#undef __copy_from_user
#undef __copy_to_user
#undef clear_user
#undef access_ok
#undef readb_relaxed
#undef readw_relaxed
#undef readl_relaxed
#undef writeb_relaxed
#undef writew_relaxed
#undef writel_relaxed
#undef ioread8
#undef ioread16
#undef ioread32
#undef iowrite8
#undef iowrite16
#undef iowrite32
#define __get_user(x, p) ((void)(p), (x) = nalvegop_int(), nalvegop_int())
#define __put_user(x, p) ((void)(x), (void)(p), nalvegop_int())
#define __copy_from_user(d, s, n) ((void)(d), (void)(s), (void)(n), (unsigned long)nalvegop_uint())
#define __copy_to_user(d, s, n) ((void)(d), (void)(s), (void)(n), (unsigned long)nalvegop_uint())
#define clear_user(d, n) ((void)(d), (void)(n), (unsigned long)nalvegop_uint())
#define access_ok(...) ((void)(__VA_ARGS__), nalvegop_more())
#define readb_relaxed(a) ((void)(a), (unsigned char)nalvegop_uint())
#define readw_relaxed(a) ((void)(a), (unsigned short)nalvegop_uint())
#define readl_relaxed(a) ((void)(a), nalvegop_uint())
#define writeb_relaxed(v, a) ((void)(v), (void)(a))
#define writew_relaxed(v, a) ((void)(v), (void)(a))
#define writel_relaxed(v, a) ((void)(v), (void)(a))
#define ioread8(a) ((void)(a), nalvegop_uint())
#define ioread16(a) ((void)(a), nalvegop_uint())
#define ioread32(a) ((void)(a), nalvegop_uint())
#define iowrite8(v, a) ((void)(v), (void)(a))
#define iowrite16(v, a) ((void)(v), (void)(a))
#define iowrite32(v, a) ((void)(v), (void)(a))

/* Bytes and strings: their contents are not followed, and no object goes away through them. */
#undef memcpy
#undef memmove
#undef memset
#undef strcpy
#undef strncpy
#undef strcat
#undef strncat
#undef memcmp
#undef strcmp
#undef strncmp
#undef strcasecmp
#undef strncasecmp
#undef sprintf
#undef snprintf
#undef scnprintf
#undef strscpy
#undef strlen
#undef strnlen
#undef strlcpy
#undef strlcat
#define memcpy(d, ...) ((void)(__VA_ARGS__), (d))
#define memmove(d, ...) ((void)(__VA_ARGS__), (d))
#define memset(d, ...) ((void)(__VA_ARGS__), (d))
#define strcpy(d, ...) ((void)(__VA_ARGS__), (d))
#define strncpy(d, ...) ((void)(__VA_ARGS__), (d))
#define strcat(d, ...) ((void)(__VA_ARGS__), (d))
#define strncat(d, ...) ((void)(__VA_ARGS__), (d))
#define memcmp(...) ((void)(__VA_ARGS__), nalvegop_int())
#define strcmp(...) ((void)(__VA_ARGS__), nalvegop_int())
#define strncmp(...) ((void)(__VA_ARGS__), nalvegop_int())
#define strcasecmp(...) ((void)(__VA_ARGS__), nalvegop_int())
#define strncasecmp(...) ((void)(__VA_ARGS__), nalvegop_int())
#define sprintf(...) ((void)(__VA_ARGS__), nalvegop_int())
#define snprintf(...) ((void)(__VA_ARGS__), nalvegop_int())
#define scnprintf(...) ((void)(__VA_ARGS__), nalvegop_int())
#define strscpy(...) ((void)(__VA_ARGS__), nalvegop_int())
#define strlen(...) ((void)(__VA_ARGS__), nalvegop_ulong())
#define strnlen(...) ((void)(__VA_ARGS__), nalvegop_ulong())
#define strlcpy(...) ((void)(__VA_ARGS__), nalvegop_ulong())
#define strlcat(...) ((void)(__VA_ARGS__), nalvegop_ulong())

/* A machine works on the object behind an operation's first argument. These calls have none, and get one. */
#ifdef NALVEGOP_MACHINE
extern struct nalvegop_cpu { int state; } nalvegop_cpu;
void nalvegop_irq_disable(struct nalvegop_cpu *cpu);
void nalvegop_irq_enable(struct nalvegop_cpu *cpu);
void nalvegop_preempt_disable(struct nalvegop_cpu *cpu);
void nalvegop_preempt_enable(struct nalvegop_cpu *cpu);
void nalvegop_rcu_lock(struct nalvegop_cpu *cpu);
void nalvegop_rcu_unlock(struct nalvegop_cpu *cpu);
#undef local_irq_disable
#undef local_irq_enable
#undef preempt_disable
#undef preempt_enable
#undef rcu_read_lock
#undef rcu_read_unlock
#define local_irq_disable() nalvegop_irq_disable(&nalvegop_cpu)
#define local_irq_enable() nalvegop_irq_enable(&nalvegop_cpu)
#define preempt_disable() nalvegop_preempt_disable(&nalvegop_cpu)
#define preempt_enable() nalvegop_preempt_enable(&nalvegop_cpu)
#define rcu_read_lock() nalvegop_rcu_lock(&nalvegop_cpu)
#define rcu_read_unlock() nalvegop_rcu_unlock(&nalvegop_cpu)
#endif

/* States of the task, delays, and numbers of calls: the check of their size is left out. */
#undef set_current_state
#undef __set_current_state
#undef set_special_state
#define set_current_state(s) ((void)(s))
#define __set_current_state(s) ((void)(s))
#define set_special_state(s) ((void)(s))
#undef udelay
#undef ndelay
#undef mdelay
#undef _IOC_TYPECHECK
#define udelay(n) ((void)(n))
#define ndelay(n) ((void)(n))
#define mdelay(n) ((void)(n))
#define _IOC_TYPECHECK(t) (sizeof(t))

/* Queues of bytes: what is in them is not followed, but that it goes away there. */
#undef kfifo_len
#undef kfifo_avail
#undef kfifo_size
#undef kfifo_is_empty
#undef kfifo_is_full
#undef kfifo_initialized
#undef kfifo_reset
#undef kfifo_reset_out
#undef kfifo_in
#undef kfifo_out
#undef kfifo_get
#undef kfifo_peek
#undef kfifo_in_locked
#undef kfifo_in_spinlocked
#undef kfifo_out_locked
#undef kfifo_out_spinlocked
#undef kfifo_from_user
#undef kfifo_to_user
#undef kfifo_alloc
#undef kfifo_free
#define kfifo_len(f) ((void)(f), nalvegop_uint())
#define kfifo_avail(f) ((void)(f), nalvegop_uint())
#define kfifo_size(f) ((void)(f), nalvegop_uint())
#define kfifo_is_empty(f) ((void)(f), nalvegop_more())
#define kfifo_is_full(f) ((void)(f), nalvegop_more())
#define kfifo_initialized(f) ((void)(f), nalvegop_more())
#define kfifo_reset(f) ((void)(f))
#define kfifo_reset_out(f) ((void)(f))
#define kfifo_in(f, b, n) ((void)(f), nalvegop_use(b), (void)(n), nalvegop_uint())
#define kfifo_out(f, b, n) ((void)(f), (void)(b), (void)(n), nalvegop_uint())
#define kfifo_get(f, v) ((void)(f), (void)(v), nalvegop_int())
#define kfifo_peek(f, v) ((void)(f), (void)(v), nalvegop_int())
#define kfifo_in_locked(f, b, n, l) ((void)(f), nalvegop_use(b), (void)(n), nalvegop_take_and_give(l), nalvegop_uint())
#define kfifo_in_spinlocked(f, b, n, l) ((void)(f), nalvegop_use(b), (void)(n), nalvegop_take_and_give(l), nalvegop_uint())
#define kfifo_out_locked(f, b, n, l) ((void)(f), (void)(b), (void)(n), nalvegop_take_and_give(l), nalvegop_uint())
#define kfifo_out_spinlocked(f, b, n, l) ((void)(f), (void)(b), (void)(n), nalvegop_take_and_give(l), nalvegop_uint())
#define kfifo_from_user(f, b, n, c) ((void)(f), (void)(b), (void)(n), *(c) = nalvegop_uint(), nalvegop_int())
#define kfifo_to_user(f, b, n, c) ((void)(f), (void)(b), (void)(n), *(c) = nalvegop_uint(), nalvegop_int())
#define kfifo_alloc(f, n, g) ((void)(f), (void)(n), (void)(g), nalvegop_int())
#define kfifo_free(f) ((void)(f))

/* What stands at file scope and says nothing of a run. */
#undef module_init
#undef module_exit
#undef EXPORT_SYMBOL
#undef EXPORT_SYMBOL_GPL
#undef MODULE_LICENSE
#undef MODULE_AUTHOR
#undef MODULE_DESCRIPTION
#undef MODULE_ALIAS
#undef MODULE_DEVICE_TABLE
#undef module_param
#undef MODULE_PARM_DESC
#define module_init(f) extern int nalvegop_int(void)
#define module_exit(f) extern int nalvegop_int(void)
#define EXPORT_SYMBOL(x) extern int nalvegop_int(void)
#define EXPORT_SYMBOL_GPL(x) extern int nalvegop_int(void)
#define MODULE_LICENSE(x) extern int nalvegop_int(void)
#define MODULE_AUTHOR(x) extern int nalvegop_int(void)
#define MODULE_DESCRIPTION(x) extern int nalvegop_int(void)
#define MODULE_ALIAS(x) extern int nalvegop_int(void)
#define MODULE_DEVICE_TABLE(t, n) extern int nalvegop_int(void)
#define module_param(n, t, p) extern int nalvegop_int(void)
#define MODULE_PARM_DESC(n, d) extern int nalvegop_int(void)

#undef core_initcall
#undef postcore_initcall
#undef arch_initcall
#undef subsys_initcall
#undef fs_initcall
#undef rootfs_initcall
#undef device_initcall
#undef late_initcall
#undef MODULE_VERSION
#undef MODULE_FIRMWARE
#undef MODULE_SOFTDEP
#undef MODULE_IMPORT_NS
#undef MODULE_INFO
#undef EXPORT_SYMBOL_NS
#undef EXPORT_SYMBOL_NS_GPL
#undef module_param_named
#undef module_param_array
#undef module_param_string
#define core_initcall(f) extern int nalvegop_int(void)
#define postcore_initcall(f) extern int nalvegop_int(void)
#define arch_initcall(f) extern int nalvegop_int(void)
#define subsys_initcall(f) extern int nalvegop_int(void)
#define fs_initcall(f) extern int nalvegop_int(void)
#define rootfs_initcall(f) extern int nalvegop_int(void)
#define device_initcall(f) extern int nalvegop_int(void)
#define late_initcall(f) extern int nalvegop_int(void)
#define MODULE_VERSION(x) extern int nalvegop_int(void)
#define MODULE_FIRMWARE(x) extern int nalvegop_int(void)
#define MODULE_SOFTDEP(x) extern int nalvegop_int(void)
#define MODULE_IMPORT_NS(x) extern int nalvegop_int(void)
#define MODULE_INFO(t, x) extern int nalvegop_int(void)
#define EXPORT_SYMBOL_NS(x, n) extern int nalvegop_int(void)
#define EXPORT_SYMBOL_NS_GPL(x, n) extern int nalvegop_int(void)
#define module_param_named(n, v, t, p) extern int nalvegop_int(void)
#define module_param_array(n, t, c, p) extern int nalvegop_int(void)
#define module_param_string(n, s, l, p) extern int nalvegop_int(void)
#endif
