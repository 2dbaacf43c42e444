/* What our C files need of <errno.h>: the kit's compiler comes without headers. */
#ifndef HEADERS_ERRNO_H
#define HEADERS_ERRNO_H

int *__errno_location(void);
#define errno (*__errno_location())

#define EINTR 4
#define EEXIST 17

#endif
