#include <answer.h>
#include <stdlib.h>

/* (it compiles only with all flags) */
static const char *name = NAME;
FORCED
void lost(struct answer *answer)
{
	answer->given = malloc(1);
	void *p = malloc(sizeof(NAME) == 4);
}
