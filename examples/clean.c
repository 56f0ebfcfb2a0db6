typedef struct{int v;}spinlock_t;
void both(spinlock_t*a,spinlock_t*b){spin_lock(a);spin_lock(b);spin_unlock(b);spin_unlock(a);}
