#include <stdlib.h>

/* wrong: `buffer` is lost where `full` holds */
void
fill(full, slot)
	_Bool full;
	void **slot;
{
	void *buffer = malloc(4);

	if (full)
		return;
	*slot = buffer;
}
