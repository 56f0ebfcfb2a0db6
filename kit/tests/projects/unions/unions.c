/* members of unions, members without a name, bit fields; and what moves in its line */
#include <pthread.h>
#include <stdlib.h>
#include <string.h>

union value {
	int number;
	char *text;
};

struct item {
	pthread_mutex_t lock;
	unsigned is_text : 1, kind : 3;
	union {
		char *name;
		struct {
			int first, last;
		};
	};
	union value value;
};

/* the text is lost where the kind is 7 */
int item_set(struct item *it, int number)
{
	char *text = malloc(8);

	if (!text)
		return -1;
	if (it->kind == 7)
		return it->first;
	it->value.text = text;
	it->is_text = 1;
	return number ?: it->value.number;
}

/* well: each way out unlocks */
int item_count(struct item *it, const char *from, int most)
{
	int count = 0;

	pthread_mutex_lock(&it->lock);
	while (most-- && *from++ == 'x')
		count++;
	pthread_mutex_unlock(&it->lock);
	return ({ int twice = count * 2; twice + it->last; });
}

/* the lock is taken twice: the places behind what moves are those of the source */
int item_find(struct item *it, const char *from)
{
	const char *end = strchr(from, ':');

	pthread_mutex_lock(&it->lock);
	if (end && strlen(end + 1) > 8 && item_count(it, strchr(from, ';') + 1, 3)) return 1;
	pthread_mutex_unlock(&it->lock);
	return 0;
}
