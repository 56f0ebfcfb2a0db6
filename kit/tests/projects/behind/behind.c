#include <stdlib.h>

struct text {
	char *bytes;
	int length;
};

static struct text *last;

static void text_clear(struct text *text)
{
	free(text->bytes);
	text->bytes = NULL;
}

static void last_drop(void)
{
	free(last);
	last = NULL;
}

/* right, and found all the same: what text_clear frees lies behind its parameter, so the finding says that it may be false */
void text_fill(struct text *text)
{
	text->bytes = malloc(8);
	if (text->bytes)
		text_clear(text);
}

/* right in the same way, by a global variable */
void last_fill(void)
{
	last = malloc(sizeof *last);
	if (last)
		last_drop();
}

/* wrong: where the length is 3 nothing is freed. The run shown first goes by text_clear, so it is looked for once more */
int text_measure(int length)
{
	struct text text;

	text.bytes = malloc(8);
	if (!text.bytes)
		return 0;
	if (length == 3)
		return 3;
	text_clear(&text);
	return length;
}

/* right: it is known what becomes of what a parameter points to */
static void text_free(struct text *text)
{
	free(text);
}

void text_make(void)
{
	struct text *text = malloc(sizeof *text);

	if (text)
		text_free(text);
}
