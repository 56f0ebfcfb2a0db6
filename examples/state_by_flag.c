typedef struct{int v;}spinlock_t;
void begin(_Bool wait,spinlock_t*lock){if(wait)spin_lock(lock);}
