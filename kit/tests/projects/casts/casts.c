#include <pthread.h>
#include <stdlib.h>

struct line {
	pthread_mutex_t mutex;
	unsigned long port;
	char *text;
	int open;
};

int ask(void *argument);

/* wrong: where the line is not open the mutex stays locked */
int line_call(struct line *line, unsigned long argument)
{
	int said;

	pthread_mutex_lock(&line->mutex);
	if (!line->open)
		return -1;
	said = ask((void *)argument);
	pthread_mutex_unlock(&line->mutex);
	return said;
}

/* wrong: the mutex behind the number is locked twice, if both times the same is meant */
void line_pass(struct line *line)
{
	struct line *port = (struct line *)line->port;

	pthread_mutex_lock(&port->mutex);
	if (port->open)
		pthread_mutex_lock(&port->mutex);
	pthread_mutex_unlock(&port->mutex);
}

/* wrong: a text at an odd address is lost */
void line_free(struct line *line)
{
	char *text = malloc(24);

	(void)(line->text + 1);
	if ((unsigned long)line->text & 1)
		return;
	free(text);
}

/* right: the memory is kept by its number */
void line_open(struct line *line)
{
	char *text = malloc(24);

	line->port = (unsigned long)text;
}
