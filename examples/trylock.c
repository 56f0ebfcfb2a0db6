typedef struct { int v; } spinlock_t;
int spin_trylock(spinlock_t *lock);

int told(spinlock_t *lock)
{
        if (spin_trylock(lock))
                return 1;
        return 0;
}

int not_told(spinlock_t *lock)
{
        if (spin_trylock(lock))
                return 0;
        return 0;
}
