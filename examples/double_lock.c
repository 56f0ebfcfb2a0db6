typedef struct{int v;}spinlock_t;
void enter(_Bool again,spinlock_t*lock){spin_lock(lock);if(again)spin_lock(lock);}
