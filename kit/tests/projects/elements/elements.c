#include <pthread.h>

static pthread_mutex_t locks[4];
static _Bool full[4];

/* The elements are not told apart: for a caller that holds one of them this may be right. */
void give(unsigned char i)
{
	full[i] = 1;
	pthread_mutex_unlock(&locks[i]);
}

/* right */
void take_first(void)
{
	pthread_mutex_lock(&locks[0]);
	full[0] = 0;
	pthread_mutex_unlock(&locks[0]);
}
