#ifndef KIT_SYS_MMAN_H
#define KIT_SYS_MMAN_H
#include <stddef.h>
#define PROT_READ 1
#define MAP_PRIVATE 0x02
#define MAP_ANONYMOUS 0x20
#define MAP_NORESERVE 0x4000
#define MAP_FAILED ((void *)-1)
void *mmap(void *, size_t, int, int, int, long);
#endif
