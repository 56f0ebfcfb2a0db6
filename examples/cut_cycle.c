typedef struct { int v; } spinlock_t;
void spin_lock(spinlock_t *lock);
void spin_unlock(spinlock_t *lock);
void again(spinlock_t *lock, _Bool more);

void leave(spinlock_t *lock, _Bool more)
{
        spin_unlock(lock);
        if (more)
                again(lock, !more);
}

void again(spinlock_t *lock, _Bool more)
{
        spin_lock(lock);
        leave(lock, more);
}
