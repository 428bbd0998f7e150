/* What the C baseline needs of C's library. The toolchain's clang comes without headers, so it is declared here. */
#ifndef PLAIN_H
#define PLAIN_H

typedef __UINT8_TYPE__ uint8_t;
typedef __INT8_TYPE__ int8_t;
typedef __UINT16_TYPE__ uint16_t;
typedef __INT64_TYPE__ int64_t;
typedef __UINT64_TYPE__ uint64_t;
typedef __SIZE_TYPE__ size_t;
typedef __PTRDIFF_TYPE__ ssize_t;
typedef _Bool bool;
#define true 1
#define false 0

void *memcpy(void *to, const void *from, size_t count);
void *memset(void *to, int byte, size_t count);
int strcmp(const char *one, const char *other);
ssize_t read(int file, void *to, size_t count);
ssize_t write(int file, const void *from, size_t count);

#endif
