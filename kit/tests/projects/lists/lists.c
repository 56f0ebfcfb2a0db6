#include <errno.h>
#include <pthread.h>
#include <stdlib.h>
#include <unistd.h>

#define RETRY(call) ({ __typeof__(file) got; do got = (call); while (got == -1 && errno == EINTR); got; })

struct pair {
	char *one, *two;
	struct { int left, right; } size;
};

struct table {
	pthread_mutex_t mutex;
	struct pair pair;
};

/* wrong: the first text is lost where there is no second one */
int pair_make(struct pair *to, int left, int right)
{
	char *one = malloc(left);
	struct pair made = {
		.one = one,
		.size = { .left = left, .right = right },
	};

	if (!one)
		return 0;
	made.two = malloc(right);
	if (!made.two)
		return 0;
	*to = made;
	return 1;
}

/* wrong: where nothing is left the mutex stays locked */
void table_clear(struct table *table)
{
	pthread_mutex_lock(&table->mutex);
	table->pair = (struct pair) { .size = { .left = table->pair.size.right } };
	if (!table->pair.size.left)
		return;
	pthread_mutex_unlock(&table->mutex);
}

/* right: the second member is 0 */
void table_reset(struct table *table)
{
	struct pair empty = { .size.left = 1 };

	pthread_mutex_lock(&table->mutex);
	table->pair = empty;
	if (!empty.size.right)
		pthread_mutex_unlock(&table->mutex);
}

/* wrong: where nothing is read the mutex stays locked */
void table_read(struct table *table, long file)
{
	long size;

	pthread_mutex_lock(&table->mutex);
	size = RETRY(read(file, table->pair.one, 4));
	if (size < 0)
		return;
	pthread_mutex_unlock(&table->mutex);
}
