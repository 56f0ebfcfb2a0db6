#include <stddef.h>
#include <pthread.h>

#define container_of(p, type, member) ((type *)((char *)(p) - offsetof(type, member)))

struct node {
	struct node *next;
};

struct item {
	pthread_mutex_t mutex;
	struct node node;
	_Bool full;
};

/* wrong: the item's mutex is locked twice where it is not full */
void item_drop(struct node *node, _Bool full)
{
	struct item *item = container_of(node, struct item, node);

	pthread_mutex_lock(&item->mutex);
	if (full)
		return;
	item->full = 0;
	pthread_mutex_lock(&item->mutex);
}

/* right */
void item_fill(struct node *node)
{
	struct item *item = container_of(node, struct item, node);

	pthread_mutex_lock(&item->mutex);
	item->full = 1;
	pthread_mutex_unlock(&item->mutex);
}
