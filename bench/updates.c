/* 286 update arrays by openssl's library, N times: in each a key's IV and octets are sealed by cipher block chaining under the last octets of the array
   before. It prints what `case_rooms` (`repeat updates N`) does. */
#define OPENSSL_SUPPRESS_DEPRECATED
#include <openssl/aes.h>
#include <stdio.h>
#include <stdlib.h>
#include <string.h>

#define ARRAYS 286

static unsigned char out[64 * ARRAYS];

static void put2(unsigned char *at, unsigned number)
{
    at[0] = number >> 8;
    at[1] = number;
}

static void put4(unsigned char *at, unsigned number)
{
    put2(at, number >> 16);
    put2(at + 2, number);
}

static void write_update(unsigned char *text, const unsigned char *by)
{
    AES_KEY key;
    unsigned char iv[16], data[32];
    memset(text, 0, 32);
    put2(text, 2);
    put2(text + 2, 60);
    text[4] = 1;
    put2(text + 5, 1);
    put2(text + 8, 1);
    put4(text + 12, 1);
    put2(text + 16, 1);
    text[18] = 3;
    put4(text + 28, 1);
    memset(iv, 2, sizeof iv);
    memset(data, 3, 16);
    memset(data + 16, 4, 16);
    AES_set_encrypt_key(by, 128, &key);
    AES_cbc_encrypt(data, text + 32, sizeof data, &key, iv, AES_ENCRYPT);
}

int main(int argc, char **argv)
{
    unsigned char key[16];
    long count = argc > 1 ? atol(argv[1]) : 0;
    memset(key, 5, sizeof key);
    for (long i = 0; i < count; i++) {
        for (int k = 0; k < ARRAYS; k++) {
            write_update(out + 64 * k, key);
            memcpy(key, out + 64 * k + 48, sizeof key);
        }
    }
    for (int i = 0; i < 16; i++)
        printf("%02x", key[i]);
    printf("\n");
    return 0;
}
