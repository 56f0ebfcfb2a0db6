#include <pthread.h>
#include <stdlib.h>

struct log {
	pthread_mutex_t mutex;
	char *begin, *end, *next;
	int lines;
};

int put(const char *from, long size);

/* wrong: where there is no room the mutex stays locked */
void log_add(struct log *log, const char *from)
{
	pthread_mutex_lock(&log->mutex);
	while (*from)
		*log->next++ = *from++;
	if (log->next >= log->end)
		return;
	*log->next++ = '\n';
	log->lines++;
	pthread_mutex_unlock(&log->mutex);
}

/* wrong: the first lock is taken twice where nothing was put */
int log_put(struct log *log, char *at)
{
	pthread_mutex_lock(&log->mutex);
	if (!put(log->begin, at - log->begin))
		pthread_mutex_lock(&log->mutex);
	pthread_mutex_unlock(&log->mutex);
	return *at++;
}

/* wrong: `copy` is lost where `from` is empty */
char *log_copy(const char *from, long size)
{
	char *copy = malloc(size), *to = copy;

	if (!copy)
		return 0;
	if (*from++ == 0)
		return 0;
	while (size--)
		*to++ = *from++;
	*--to = 0;
	return copy;
}

/* right */
long log_size(struct log *log)
{
	long size;

	pthread_mutex_lock(&log->mutex);
	size = log->end > log->next ? log->next - log->begin : 0;
	pthread_mutex_unlock(&log->mutex);
	return size;
}
