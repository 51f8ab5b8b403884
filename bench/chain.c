/* Cipher block chaining by openssl's library, N times over one text: each time a key is expanded and the text of so many octets is sealed or opened
   under it in place, and its last block is the key of the next time. It prints what `case_rooms` (`repeat WORK N`) does for the same work. */
#include <openssl/evp.h>
#include <stdio.h>
#include <stdlib.h>
#include <string.h>

int main(int argc, char **argv)
{
    if (argc != 4)
        return 1;
    int seals = strcmp(argv[1], "seal") == 0;
    int octets = atoi(argv[2]);
    long count = atol(argv[3]);
    EVP_CIPHER *cipher = EVP_CIPHER_fetch(NULL, "AES-128-CBC", NULL);
    EVP_CIPHER_CTX *context = EVP_CIPHER_CTX_new();
    unsigned char *text = calloc(octets, 1);
    unsigned char key[16], iv[16];
    memset(key, 1, sizeof key);
    memset(iv, 2, sizeof iv);
    EVP_CipherInit_ex2(context, cipher, key, iv, seals, NULL);
    EVP_CIPHER_CTX_set_padding(context, 0);
    for (long i = 0; i < count; i++) {
        int written;
        if (!EVP_CipherInit_ex2(context, NULL, key, iv, seals, NULL) || !EVP_CipherUpdate(context, text, &written, text, octets) || written != octets)
            return 1;
        memcpy(key, text + octets - 16, sizeof key);
    }
    for (int i = 0; i < 16; i++)
        printf("%02x", key[i]);
    printf("\n");
    return 0;
}
