#include <stdlib.h>

struct pair {
	void *one;
	void *other;
};

/* wrong: `pair` is lost where the second allocation fails */
struct pair *pair_new(void)
{
	struct pair *pair = malloc(sizeof *pair);

	if (!pair)
		return NULL;
	pair->one = malloc(16);
	if (!pair->one)
		return NULL;
	pair->other = NULL;
	return pair;
}

/* right */
struct pair *pair_made(void)
{
	struct pair *pair = malloc(sizeof *pair);

	if (!pair)
		goto failed;
	pair->one = malloc(16);
	if (!pair->one)
		goto free_pair;
	return pair;
free_pair:
	free(pair);
failed:
	return NULL;
}
