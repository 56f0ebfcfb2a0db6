#include_next <pthread.h>
#ifndef NALVEGOP_PTHREAD_H
#define NALVEGOP_PTHREAD_H
#include "../nalvegop.h"
/* Waiting gives the mutex away and takes it again. */
static inline void nalvegop_cond_wait(pthread_mutex_t *mutex)
{
	pthread_mutex_unlock(mutex);
	pthread_mutex_lock(mutex);
}
#define pthread_cond_wait(c, m) ((void)(c), nalvegop_cond_wait(m), 0)
#define pthread_cond_timedwait(c, m, t) ((void)(c), (void)(t), nalvegop_cond_wait(m), nalvegop_more() ? 110 : 0)
#define pthread_cond_signal(c) ((void)(c), 0)
#define pthread_cond_broadcast(c) ((void)(c), 0)
#define pthread_mutex_init(m, a) ((void)(m), (void)(a), 0)
#define pthread_mutex_destroy(m) ((void)(m), 0)
/* Readers share, so read and write locks are not followed, but by a machine (examples/machines/pthread_rwlock.machine). */
#ifndef NALVEGOP_MACHINE
#define pthread_rwlock_rdlock(l) ((void)(l), 0)
#define pthread_rwlock_wrlock(l) ((void)(l), 0)
#define pthread_rwlock_unlock(l) ((void)(l), 0)
#endif
#undef pthread_cleanup_push
#undef pthread_cleanup_pop
#define pthread_cleanup_push(f, a) nalvegop_cleanup_push((f), (a))
#define pthread_cleanup_pop(e) ((void)(e))
#endif
