#include <pthread.h>

struct word {
	int number;
	char bytes[4];
};

/* passed over, and it locks */
static inline int word_take(pthread_mutex_t *mutex, struct word *word, ...)
{
	pthread_mutex_lock(mutex);
	return word->number;
}

/* passed over; only a function that nobody of the file calls calls it */
static inline int word_left(pthread_mutex_t *mutex, struct word *word, ...)
{
	pthread_mutex_unlock(mutex);
	return word->number;
}

static inline int word_unused(pthread_mutex_t *mutex, struct word *word)
{
	return word_left(mutex, word);
}
