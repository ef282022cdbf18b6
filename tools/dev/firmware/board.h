#include <stdint.h>
uint32_t read_sensor(void);
void write_serial(const char *text, int length);
