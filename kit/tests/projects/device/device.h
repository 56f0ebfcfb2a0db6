#ifndef DEVICE_H
#define DEVICE_H
typedef struct { int raw; } spinlock_t;
void spin_lock(spinlock_t *lock);
void spin_unlock(spinlock_t *lock);
struct device {
	spinlock_t lock;
	_Bool open;
};
static inline void device_enter(struct device *dev) { spin_lock(&dev->lock); }
static inline void device_leave(struct device *dev) { spin_unlock(&dev->lock); }
static inline int device_never_used(int a) { return ({ int b = a; b + 1; }); }
#endif
