#ifndef EP_H
#define EP_H

/* The calls by which a source takes inputs and gives outputs, for running it under a C compiler:

     cc -include examples/ep.h examples/bytes.c && echo 16909060 | ./a.out

   An input is the next number of standard input, converted to the type that the call names. Where none is left the
   run is over. An output is a line of standard output with the number; ep_write gives a line for each byte. */

#include <stddef.h>
#include <stdint.h>
#include <stdio.h>
#include <stdlib.h>

/* The next number modulo 2^64, which every type's numbers can be made of. */
static inline uint64_t ep_next(void) {
  char word[80];
  if (scanf("%79s", word) != 1) {
    exit(0);
  }
  return word[0] == '-' ? (uint64_t)strtoll(word, NULL, 10) : (uint64_t)strtoull(word, NULL, 10);
}

static inline int8_t ep_in_i8(void) { return (int8_t)ep_next(); }
static inline uint8_t ep_in_u8(void) { return (uint8_t)ep_next(); }
static inline int16_t ep_in_i16(void) { return (int16_t)ep_next(); }
static inline uint16_t ep_in_u16(void) { return (uint16_t)ep_next(); }
static inline int32_t ep_in_i32(void) { return (int32_t)ep_next(); }
static inline uint32_t ep_in_u32(void) { return (uint32_t)ep_next(); }
static inline int64_t ep_in_i64(void) { return (int64_t)ep_next(); }
static inline uint64_t ep_in_u64(void) { return ep_next(); }

static inline void ep_out_i64(int64_t x) { printf("%lld\n", (long long)x); }
static inline void ep_out_u64(uint64_t x) { printf("%llu\n", (unsigned long long)x); }
static inline void ep_out_i8(int8_t x) { ep_out_i64(x); }
static inline void ep_out_u8(uint8_t x) { ep_out_u64(x); }
static inline void ep_out_i16(int16_t x) { ep_out_i64(x); }
static inline void ep_out_u16(uint16_t x) { ep_out_u64(x); }
static inline void ep_out_i32(int32_t x) { ep_out_i64(x); }
static inline void ep_out_u32(uint32_t x) { ep_out_u64(x); }

/* Stores inputs as the bytes from an address on. */
static inline void ep_read(void *to, size_t count) {
  unsigned char *bytes = to;
  for (size_t i = 0; i < count; i++) {
    bytes[i] = ep_in_u8();
  }
}

/* Puts out the bytes from an address on. */
static inline void ep_write(const void *from, size_t count) {
  const unsigned char *bytes = from;
  for (size_t i = 0; i < count; i++) {
    ep_out_u8(bytes[i]);
  }
}

#endif
