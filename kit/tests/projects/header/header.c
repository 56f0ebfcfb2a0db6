#include "list.h"

/* wrong: `node` is lost where there is no place for it */
void push(struct node **place)
{
	struct node *node = node_new();

	node_lost();
	if (!place)
		return;
	*place = node;
}
