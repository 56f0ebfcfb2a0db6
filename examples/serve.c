void *malloc(unsigned size);
void free(void *object);
typedef struct { int held; } spinlock_t;

void serve(spinlock_t *lock, int count)
{
    void *buffer = malloc(16);
    spin_lock(lock);
    if (count > 8)
        return;
    spin_lock(lock);
    free(buffer);
}
