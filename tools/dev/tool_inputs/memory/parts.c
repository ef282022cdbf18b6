// The parts of the images that tools/memory is tested on: each is put into a region by the linker scripts beside it.
#include <stdint.h>
extern void start(void);
__attribute__((section(".vectors"), used)) void *const vectors[16] = {(void *)0x20001000, start};
__attribute__((used)) const uint32_t table[101] = {1, 2, 3};
__attribute__((used)) uint32_t values[37] = {5, 6};
__attribute__((used)) uint8_t zeros[1003];
__attribute__((section(".noinit"), used)) uint8_t kept[301];
__attribute__((section(".data.second"), used)) uint32_t second[9] = {1};
__attribute__((section(".bss.second"), used)) uint8_t second_zeros[77];
__attribute__((section(".config"), used)) const uint8_t config[23] = {1};
__attribute__((section(".ramfunc"), noinline, used)) int fast(int a) { return a * 7 + zeros[a]; }
__attribute__((constructor, used)) static void begin(void) { zeros[0] = 1; }
__attribute__((used)) void start(void) { for (;;) zeros[1] += fast(table[2]) + values[3]; }
