#ifndef _LINUX_MODULE_H
#define _LINUX_MODULE_H
#define MODULE_LICENSE(x) static const char __mod_license[] __attribute__((section(".modinfo"))) = "license=" x
#endif
