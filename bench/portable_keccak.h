#ifndef PORTABLE_KECCAK_H
#define PORTABLE_KECCAK_H
#include <stdint.h>

void portable_keccak_p(uint64_t lanes[25]);
#endif
