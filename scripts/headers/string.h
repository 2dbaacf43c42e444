/* What our C files need of <string.h>: the kit's compiler comes without headers. */
#ifndef HEADERS_STRING_H
#define HEADERS_STRING_H

#include <stddef.h>

int memcmp(const void *a, const void *b, size_t n);
void *memcpy(void *to, const void *from, size_t n);
void *memmove(void *to, const void *from, size_t n);
void *memset(void *to, int byte, size_t n);
int strcmp(const char *a, const char *b);
char *strerror(int number);
size_t strlen(const char *s);

#endif
