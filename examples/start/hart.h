/* What a program of this folder may call. start.s has these for the simulator; start_linux.s has them for Linux, so that QEMU's
   user mode can run the same compiled functions. */
#include <stdint.h>

/* Puts out the low byte of a number. */
void put_byte(uint32_t byte);

/* The program: what hart number `hart` of `harts` does. The hart ends with the number that is returned. */
uint32_t run_hart(uint32_t hart, uint32_t harts);
