/* The widths that the peer uses, for a compiler that brings no C library's
   headers along. */

#ifndef BENCH_STDINT_H
#define BENCH_STDINT_H

typedef __UINT8_TYPE__ uint8_t;
typedef __UINT16_TYPE__ uint16_t;
typedef __UINT64_TYPE__ uint64_t;

#endif
