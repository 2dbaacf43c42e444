/* What our C files need of <stdio.h>: the kit's compiler comes without headers. */
#ifndef HEADERS_STDIO_H
#define HEADERS_STDIO_H

#include <stddef.h>

typedef struct _IO_FILE FILE;
extern FILE *stdin, *stdout, *stderr;
#define EOF (-1)

int printf(const char *format, ...);
int fprintf(FILE *file, const char *format, ...);
int snprintf(char *room, size_t n, const char *format, ...);
int putchar(int c);
int puts(const char *s);
int getc(FILE *file);
int fputs(const char *s, FILE *file);
FILE *fopen(const char *path, const char *mode);
int fclose(FILE *file);
int fileno(FILE *file);
size_t fread(void *to, size_t size, size_t n, FILE *file);
size_t fwrite(const void *from, size_t size, size_t n, FILE *file);
int ferror(FILE *file);
int fflush(FILE *file);
int remove(const char *path);
int rename(const char *from, const char *to);

#endif
