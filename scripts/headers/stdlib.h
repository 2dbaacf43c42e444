/* What our C files need of <stdlib.h>: the kit's compiler comes without headers. */
#ifndef HEADERS_STDLIB_H
#define HEADERS_STDLIB_H

#include <stddef.h>

long long strtoll(const char *s, char **end, int base);
unsigned long strtoul(const char *s, char **end, int base);
_Noreturn void abort(void);

#endif
