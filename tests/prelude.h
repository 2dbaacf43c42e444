/* What the C programs here need of C, without a header of the system's: the kit's compiler comes with none, and so the
   same files build on every machine that has the kit. */
#ifndef PRELUDE_H
#define PRELUDE_H

typedef __UINT8_TYPE__ u8;
typedef __UINT16_TYPE__ u16;
typedef __UINT32_TYPE__ u32;
typedef __UINT64_TYPE__ u64;
typedef __INT8_TYPE__ i8;
typedef __INT16_TYPE__ i16;
typedef __INT32_TYPE__ i32;
typedef __INT64_TYPE__ i64;
typedef __SIZE_TYPE__ usize;

int printf(const char *format, ...);
int snprintf(char *room, usize n, const char *format, ...);
usize strlen(const char *s);
int memcmp(const void *a, const void *b, usize n);
void *memcpy(void *to, const void *from, usize n);
void *memset(void *to, int byte, usize n);

#endif
