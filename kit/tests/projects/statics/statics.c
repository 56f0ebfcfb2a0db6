#include <pthread.h>
#include <stdlib.h>

/* wrong: from the fourth call on the mutex stays locked */
int ticket_next(void)
{
	static pthread_mutex_t mutex = PTHREAD_MUTEX_INITIALIZER;
	static int ticket;
	static const int most = 3;

	pthread_mutex_lock(&mutex);
	if (ticket++ > most)
		return -1;
	pthread_mutex_unlock(&mutex);
	return ticket;
}

/* right: the static variable keeps the memory */
char *buffer(void)
{
	static const char *const names[] = { "one", "two" };
	static char *ticket;

	if (!ticket)
		ticket = malloc(sizeof names);
	return ticket;
}
