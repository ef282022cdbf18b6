// What the firmware has of its board: a sensor, a serial line with a queue, the memory for the C library, and the start.
#include "board.h"

extern uint32_t data_from[], data_start[], data_end[], bss_start[], bss_end[];
extern int main(void);

static uint8_t queue[512];
static uint16_t queued;
static volatile uint32_t *const serial = (volatile uint32_t *)0x40004400;

uint32_t read_sensor(void) { return *(volatile uint32_t *)0x40012000; }

void write_serial(const char *text, int length) {
    for (int i = 0; i < length; i++) queue[queued++ % sizeof queue] = text[i];
    *serial = queue[0];
}

void *_sbrk(int more) {
    static uint8_t heap[1024];
    static int used;
    void *from = heap + used;
    used += more;
    return from;
}

void start(void) {
    for (uint32_t *to = data_start, *from = data_from; to < data_end;) *to++ = *from++;
    for (uint32_t *to = bss_start; to < bss_end;) *to++ = 0;
    main();
}

__attribute__((section(".vectors"), used)) static void *const vectors[2] = {(void *)0x20005000, start};
