// The firmware of the manual's examples: it samples a sensor and writes lines. With FILTERED it also smooths the values.
#include <stdint.h>
#include <stdio.h>
#include "board.h"

static uint32_t samples[256];
static unsigned next;
static char line[80];
const uint16_t sine[64] = {2048, 2248, 2447, 2642, 2831, 3013, 3185, 3346};
uint32_t limits[4] = {100, 200, 400, 800};

static unsigned level_of(uint32_t value) {
    unsigned level = 0;
    while (level < 4 && value >= limits[level]) level++;
    return level;
}

__attribute__((noinline)) void keep(uint32_t value) {
    samples[next++ % 256] = value * sine[next % 64] >> 11;
}

#ifdef FILTERED
static uint32_t history[16];

__attribute__((noinline)) uint32_t smoothed(uint32_t value) {
    uint32_t sum = 0;
    history[next % 16] = value;
    for (unsigned i = 0; i < 16; i++) sum += history[i];
    return sum / 16;
}
#else
static uint32_t smoothed(uint32_t value) { return value; }
#endif

int main(void) {
    for (;;) {
        uint32_t value = smoothed(read_sensor());
        keep(value);
        int length = snprintf(line, sizeof line, "%lu level %u of %lu\n", (unsigned long)value, level_of(value), (unsigned long)samples[0]);
        write_serial(line, length);
    }
}
