#include <stdlib.h>

static void freed(void **p)
{
	free(*p);
}

/* passed over: `freed` runs at the end of the scope */
void scoped(void)
{
	__attribute__((cleanup(freed))) void *p = malloc(8);
}

/* wrong: here it does not */
void unscoped(void)
{
	void *p = malloc(8);
}
