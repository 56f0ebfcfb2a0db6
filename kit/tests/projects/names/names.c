#include <stdlib.h>
typedef struct list { struct list *next; void *value; _Bool full; } list;

/* wrong: the list is lost where it is full */
list *list_new(void)
{
	list *list = malloc(sizeof *list);

	if (!list)
		return NULL;
	list->value = malloc(2);
	if (!list->value)
		return NULL;
	return list;
}

/* right */
void list_clear(list *list, _Bool full)
{
	if (full)
		free(list->value);
	list->value = NULL;
}
