/* The work of one wrap by openssl's library: a key expanded, and two blocks encrypted under it, N times. It prints what `case_rooms` (`repeat wrap N`) does. */
#define OPENSSL_SUPPRESS_DEPRECATED
#include <openssl/aes.h>
#include <stdio.h>
#include <stdlib.h>
#include <string.h>

int main(int argc, char **argv)
{
    unsigned char block[16];
    long count = argc > 1 ? atol(argv[1]) : 0;
    memset(block, 3, sizeof block);
    for (long i = 0; i < count; i++) {
        AES_KEY key;
        AES_set_encrypt_key(block, 128, &key);
        AES_encrypt(block, block, &key);
        AES_encrypt(block, block, &key);
    }
    for (int i = 0; i < 16; i++)
        printf("%02x", block[i]);
    printf("\n");
    return 0;
}
