#include <pthread.h>

/* The value says whether the mutex is taken or given back: callers know. */
void both(pthread_mutex_t *mutex, unsigned char what)
{
	switch (what) {
	case 1:
		pthread_mutex_lock(mutex);
		break;
	case 2:
		pthread_mutex_unlock(mutex);
		break;
	}
}

/* wrong: nothing says whether the mutex is held */
void maybe(pthread_mutex_t *mutex, _Bool *full, unsigned char what)
{
	if (what == 3)
		return;
	pthread_mutex_lock(mutex);
	if (*full)
		pthread_mutex_unlock(mutex);
}
