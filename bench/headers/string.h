/* What the peer uses of the C library's string.h. */

#ifndef BENCH_STRING_H
#define BENCH_STRING_H

void *memset(void *to, int byte, __SIZE_TYPE__ count);
int memcmp(const void *one, const void *other, __SIZE_TYPE__ count);
__SIZE_TYPE__ strlen(const char *text);

#endif
