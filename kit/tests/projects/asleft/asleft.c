/* locks that callers do not know, and a lock whose state the value of a parameter tells */
#include <pthread.h>
struct q { pthread_mutex_t m; int n; };
struct q *get(void);
static void conv(struct q *s, int a)
{
	if (a) {
		pthread_mutex_lock(&s->m);
		s->n = a;
		pthread_mutex_unlock(&s->m);
	}
}
static void enter(struct q *s)
{
	pthread_mutex_lock(&s->m);
}
/* well, but a row of `conv` begins with the lock locked: the finding says so */
void f(int a, int b)
{
	struct q *s = get();

	if (s) {
		conv(s, a);
		conv(s, b);
	}
}
/* the lock is taken twice */
void g(int b)
{
	struct q *s = get();

	if (s) {
		enter(s);
		conv(s, b);
	}
}

#define LOCK_IT 1

/* well: the mode says what is to be done, and the finding says so */
void turn(int mode, struct q *s)
{
	if (mode & LOCK_IT)
		pthread_mutex_lock(&s->m);
	else
		pthread_mutex_unlock(&s->m);
}

/* well, as `f` */
void add(int a)
{
	struct q *s = get();

	conv(s, a);
	pthread_mutex_lock(&s->m);
	s->n++;
	pthread_mutex_unlock(&s->m);
}
