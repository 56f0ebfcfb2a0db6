#include <linux/module.h>
#include <linux/spinlock.h>
#include <linux/slab.h>
#include <linux/err.h>

struct ring {
	spinlock_t lock;
	_Bool open;
};

/* wrong: an open ring stays locked and `slot` is lost; the caller cannot know */
static void *ring_open(struct ring *ring)
{
	unsigned long flags;
	void *slot = kzalloc(64, GFP_KERNEL);

	if (!slot)
		return ERR_PTR(-12);
	spin_lock_irqsave(&ring->lock, flags);
	if (ring->open)
		return ERR_PTR(-16);
	ring->open = 1;
	spin_unlock_irqrestore(&ring->lock, flags);
	return slot;
}

void *ring_use(struct ring *ring)
{
	return ring_open(ring);
}

MODULE_LICENSE("GPL");
