#include <pthread.h>
#include <stdlib.h>

struct port {
	pthread_mutex_t lock;
	int open;
	int speed;
	char *buffer;
};

int port_test(struct port *port);

/* wrong: an open port of that speed stays locked where the test fails */
int port_start(struct port *port, int speed)
{
	int found;

	pthread_mutex_lock(&port->lock);
	if (port->open && port->speed == 9600 && speed > 5) {
		found = port_test(port);
		if (found < 0)
			return 0;
	}
	pthread_mutex_unlock(&port->lock);
	return 0;
}

/* wrong: the first buffer is lost where there is no second one; what stands in one line with the call is not looked at */
int port_buffers(struct port *port, char **other)
{
	char *buffer = malloc(16);

	if (!buffer) return -1;
	*other = malloc(16); if (!*other) return -1;
	port->buffer = buffer;
	return 0;
}

/* right */
int port_stop(struct port *port)
{
	int found;

	pthread_mutex_lock(&port->lock);
	found = port_test(port);
	pthread_mutex_unlock(&port->lock);
	return found;
}
