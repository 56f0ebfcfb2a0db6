#include <pthread.h>
#include <stdlib.h>
#include <string.h>

struct slot {
	pthread_mutex_t mutex;
	int is_free;
};

struct text {
	pthread_mutex_t mutex;
	char *begin;
	int length;
};

int put(char *to, int size);

/* wrong: where nothing was put the mutex stays locked */
int text_add(struct text *text, const char *from, int size)
{
	char *end;

	pthread_mutex_lock(&text->mutex);
	end = text->begin + text->length;
	if (!put(end, size))
		return 0;
	memcpy(end + 1, from, size);
	text->length += size;
	pthread_mutex_unlock(&text->mutex);
	return *(from + size);
}

/* wrong: `copy` is lost where nothing was put */
int text_copy(const char *from, int size)
{
	char *copy = malloc(size);
	int i;

	if (!copy)
		return 0;
	for (i = 0; i < size; from++)
		i += put(copy, *from);
	if (i) {
		free(copy);
		return 0;
	}
	return 1;
}

/* wrong, and the finding says what it does not know: what the pointer is after the step */
void slots_take(struct slot *slot, int number)
{
	slot += number;
	pthread_mutex_lock(&slot->mutex);
	if (!slot->is_free)
		pthread_mutex_lock(&slot->mutex);
	pthread_mutex_unlock(&slot->mutex);
}

/* right: the mutex of the first one, whichever way it is written */
void slots_look(struct slot *slot)
{
	pthread_mutex_lock(&(slot + 0)->mutex);
	pthread_mutex_unlock(&slot->mutex);
}
