#include <stddef.h>
#include <stdint.h>

void c_sha256(const uint8_t *bytes, size_t n, uint8_t out[32]);
void rattle_sha256(const uint8_t *bytes, size_t n, uint8_t out[32]);
