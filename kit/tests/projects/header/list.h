#include <stdlib.h>
struct node { struct node *next; };
/* wrong, but in a header */
static inline void node_lost(void) { struct node *n = malloc(sizeof *n); }
static inline struct node *node_new(void)
{
	return malloc(sizeof(struct node));
}
