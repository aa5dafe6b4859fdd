/* The field with q = p^s elements. An element is the exponent of a fixed generator, or zero as `field->zero`; sums go by
 * Zech's logarithms. It shares nothing with arithmetic modulo p as the library does it. */
#ifndef FIELD_H
#define FIELD_H

#include <stdint.h>

typedef struct {
    uint32_t p;
    uint32_t zero;      /* q - 1, which is also the order of the generator */
    uint32_t *zech;     /* zech[i]: the element 1 + generator^i */
    uint32_t *residues; /* the elements that the numbers below p are */
} Field;

/* The field over p that is large enough for random substitution. It lasts until many others were asked for. */
const Field *field_over(uint32_t p);

uint32_t field_product(const Field *f, uint32_t x, uint32_t y);
uint32_t field_sum(const Field *f, uint32_t x, uint32_t y);
uint32_t field_quotient(const Field *f, uint32_t x, uint32_t y);
uint32_t field_negative(const Field *f, uint32_t x);

#endif
