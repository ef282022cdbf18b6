#include <stdint.h>
__attribute__((used)) _Thread_local uint32_t own[5] = {1};
__attribute__((used)) _Thread_local uint32_t own_zeros[50];
