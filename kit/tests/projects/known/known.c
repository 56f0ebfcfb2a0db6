#include <stdlib.h>

void first(void)
{
	void *p = malloc(1);
	void *q = malloc(2);

	free(q);
}

void second(void)
{
	void *p = malloc(1); /* nalvegop: ok it lives as long as the program */
}

/* nalvegop: ok told in the manual */
void third(void)
{
	void *p = malloc(1);
}
