#include "libcrypto.h"

#include <openssl/evp.h>
#include <stdio.h>
#include <stdlib.h>

void libcrypto_aes(enum direction direction, const uint8_t key[16], const uint8_t block[16], uint8_t out[16])
{
    int len = 0;
    EVP_CIPHER_CTX *context = EVP_CIPHER_CTX_new();
    if (context == NULL || EVP_CipherInit_ex(context, EVP_aes_128_ecb(), NULL, key, NULL, direction == ENCIPHER) != 1 ||
        EVP_CIPHER_CTX_set_padding(context, 0) != 1 || EVP_CipherUpdate(context, out, &len, block, 16) != 1 || len != 16) {
        fputs("libcrypto failed\n", stderr);
        exit(2);
    }
    EVP_CIPHER_CTX_free(context);
}
