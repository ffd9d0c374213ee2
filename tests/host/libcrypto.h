/* OpenSSL's AES-128 on one block. */
#ifndef LIBCRYPTO_H
#define LIBCRYPTO_H

#include <stdint.h>

enum direction { DECIPHER, ENCIPHER };

void libcrypto_aes(enum direction direction, const uint8_t key[16], const uint8_t block[16], uint8_t out[16]);

#endif
