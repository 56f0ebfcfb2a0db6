typedef struct { int v; } spinlock_t;
void *kmalloc(unsigned long size, int flags);
void kfree(void *object);
void spin_lock(spinlock_t *lock);

static void enter(spinlock_t *lock)
{
        spin_lock(lock);
}

void serve(spinlock_t *lock, _Bool full)
{
        void *buffer = kmalloc(16, 0);

        enter(lock);
        if (full)
                return;
        enter(lock);
        kfree(buffer);
}
