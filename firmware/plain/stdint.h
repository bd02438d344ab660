#ifndef PLAIN_STDINT_H
#define PLAIN_STDINT_H
typedef short int16_t;
typedef unsigned int uint32_t;
typedef unsigned long uint64_t;
#define UINT32_MAX 4294967295u
#endif
