#include <pthread.h>
#include <stdlib.h>

struct item {
	pthread_mutex_t mutex;
	int key_length;
	char data[8];
};

#define ITEM_VALUE(item) (((char *)&((item)->data)) + (item)->key_length)

void send(const char *value, int length);

/* wrong: where the key is empty the mutex stays locked */
void item_send(struct item *item)
{
	pthread_mutex_lock(&item->mutex);
	if (!item->key_length)
		return;
	send(ITEM_VALUE(item), 8 - item->key_length);
	pthread_mutex_unlock(&item->mutex);
}

/* wrong: the mutex behind the item is locked twice, if both times the same is meant */
void item_pass(struct item *item)
{
	struct item *next = (struct item *)((char *)item + sizeof *item);

	pthread_mutex_lock(&next->mutex);
	if (next->key_length)
		pthread_mutex_lock(&next->mutex);
	pthread_mutex_unlock(&next->mutex);
}

/* right: the memory is kept by the pointer that is counted from it */
char *item_new(void)
{
	char *bytes = malloc(24);

	if (!bytes)
		return NULL;
	return (char *)bytes + 8;
}
