#include <stdlib.h>
#include "missing.h"

struct queue {
	pthread_mutex_t mutex;
	struct word word;
	char *text;
};

static void queue_unlock(struct queue *q)
{
	pthread_mutex_unlock(&q->mutex);
}

/* passed over: it tries to lock, unlocks by way of another function, and allocates */
static int queue_fill(struct queue *q, ...)
{
	if (pthread_mutex_trylock(&q->mutex))
		return 0;
	q->text = malloc(q->word.number);
	queue_unlock(q);
	return 1;
}

/* passed over: it frees */
static void queue_clear(struct queue *q, ...)
{
	free(q->word.number > 0 ? q->text : NULL);
}

/* passed over, but it does nothing that counts */
static int queue_length(struct queue *q, ...)
{
	return q->word.number;
}

/* all of both is missing; each is told once */
int queue_turn(struct queue *q)
{
	int done = queue_fill(q);

	if (!done)
		done = queue_fill(q);
	queue_clear(q);
	return done + queue_length(q);
}

/* right, since `word_take` has locked: the finding says that it is not followed */
void queue_add(struct queue *q)
{
	pthread_mutex_lock(&q->mutex);
	pthread_mutex_unlock(&q->mutex);
	word_take(&q->mutex, &q->word);
	pthread_mutex_unlock(&q->mutex);
}

/* a function that is only named is not called */
void *queue_names(void)
{
	void (*clear)(struct queue *q, ...) = queue_clear;

	return clear ? 0 : malloc(1);
}
