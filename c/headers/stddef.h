/* The kit has no C headers. tools/build takes only the few here, so that a program is built the same way on every machine. */
#ifndef KIT_STDDEF_H
#define KIT_STDDEF_H
typedef __SIZE_TYPE__ size_t;
#define NULL ((void *)0)
#endif
