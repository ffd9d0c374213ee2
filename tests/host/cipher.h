/* The numbers by which a call names a cipher. */
#ifndef CIPHER_H
#define CIPHER_H

#include "chance.h"

#include <stdbool.h>

/* 0 for the forward cipher, and for the inverse one any other number: one at an edge, one of a single bit or one of 64 random bits. */
uint64_t cipher_number(bool inverse, struct chance *chance);

#endif
