/* What wasmloop.h takes of <stddef.h>, for a compiler that comes without headers: so the library's bytes don't depend on a machine's. */
typedef __SIZE_TYPE__ size_t;
typedef __PTRDIFF_TYPE__ ptrdiff_t;
#define NULL ((void *)0)
