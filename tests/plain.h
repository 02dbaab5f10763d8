#include <stddef.h>
#include <stdint.h>

uint32_t plain_reckon(const uint8_t *dossier, size_t dossier_len, const uint8_t *plan, size_t plan_len, const uint16_t *ends, size_t ends_len,
                      uint8_t *result, size_t result_len);
