typedef struct { int raw; } spinlock_t;
void spin_lock(spinlock_t *lock);
void spin_unlock(spinlock_t *lock);

#define WITH_LOCK(lock, what) \
	do { \
		spin_lock(lock); \
		what; \
		spin_unlock(lock); \
	} while (0)

void twice(spinlock_t *lock, _Bool *a, _Bool *b)
{
	WITH_LOCK(lock,
		  *a = 1);
	WITH_LOCK(lock, /* a comment of
			 * two lines */ *b =
		  0);   spin_unlock(lock);
}

void nested(spinlock_t   *lock,   _Bool *a)
{
	/* wrong */ WITH_LOCK(lock, spin_lock(lock));
	*a = 1;
}
