/* A piece of a hypervisor with floating-point numbers of its own: tests/c/run links it with the board's object by each convention of passing them. */
#include "gresomund.h"

double half(double x);
double half(double x) { return x / 2; }

uint32_t ask(uint32_t address, uint32_t value, uint8_t *mem, const uint8_t *kinds, struct gresomund_state *state, uint8_t *used, uint16_t *lens);
uint32_t ask(uint32_t address, uint32_t value, uint8_t *mem, const uint8_t *kinds, struct gresomund_state *state, uint8_t *used, uint16_t *lens) {
  return gresomund_guest_write(address, value, mem, GRESOMUND_MEM_BYTES, kinds, 16, state, used, lens);
}
