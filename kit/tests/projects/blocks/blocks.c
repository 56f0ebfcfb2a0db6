#include <stdlib.h>

/* wrong: the first element is lost where there is no second one */
int chain(count, what)
	unsigned char what;
	int count;
{
	struct element {
		int kind;
		struct element *next;
	} *first, *second;
	enum { GOOD, BAD = 3 };

	if (count < 2)
		return BAD;
	first = malloc(sizeof *first);
	if (!first)
		return BAD;
	second = malloc(sizeof *second);
	if (!second)
		return BAD;
	first->kind = what;
	first->next = second;
	free(first->next);
	free(first);
	return GOOD;
}

/* right, but passed over: a name that two functions declare for themselves stays where it is */
int up(int count)
{
	enum { STEP = 1 };

	return count + STEP;
}

int down(int count)
{
	enum { STEP = 2 };

	return count - STEP;
}
