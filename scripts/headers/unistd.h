/* What our C files need of <unistd.h>: the kit's compiler comes without headers. */
#ifndef HEADERS_UNISTD_H
#define HEADERS_UNISTD_H

#include <stddef.h>

typedef __PTRDIFF_TYPE__ ssize_t;
#define STDIN_FILENO 0

ssize_t read(int file, void *to, size_t n);
int fsync(int file);
int link(const char *from, const char *to);

#endif
