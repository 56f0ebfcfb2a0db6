#include "device.h"

/* right: the lock is given back on each path */
void device_open(struct device *dev)
{
	device_enter(dev);
	dev->open = 1;
	device_leave(dev);
}

/* wrong: an open device is locked twice */
void device_reset(struct device *dev, int again)
{
	device_enter(dev);
	if (again)
		device_enter(dev);
	device_leave(dev);
}
