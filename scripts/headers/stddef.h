/* What our C files need of <stddef.h>: the kit's compiler comes without headers. */
#ifndef HEADERS_STDDEF_H
#define HEADERS_STDDEF_H

typedef __SIZE_TYPE__ size_t;
#define offsetof(type, member) __builtin_offsetof(type, member)
#ifdef __cplusplus
#define NULL nullptr
#else
#define NULL ((void *)0)
#endif

#endif
