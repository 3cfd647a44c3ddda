/* Erases a partition and does not look at the answer. */
#include "sciambrunola.h"

void forget(const uint8_t *image, uint32_t *cells, const uint32_t *marks, sci_context *context)
{
    sci_erase(image, 24, cells, 12, marks, 12, context, 0);
}
