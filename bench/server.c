/* The server's ciphers and hashes of COUNT pulls in a tree of 512 leaves by openssl's library. Messages 1 and 3 it opens, and makes their HASH; of messages 2
   and 4 it makes the HASH, and seals the text. Keys and nonces stay the same, and no session, policy or tree is kept. It prints how many pulls there were. */
#include <openssl/crypto.h>
#include <openssl/evp.h>
#include <openssl/params.h>
#include <stdio.h>
#include <stdlib.h>
#include <string.h>

#define BLOCK 16
#define HASH 32
#define HASH_PAYLOAD (4 + HASH)
#define MESSAGES 4
#define MOST 640

/* How many octets of nonces the HASH of a message has before its payloads, and how many octets these have. */
static const struct {
    size_t nonces, payloads;
} messages[MESSAGES] = {{0, 20 + 15}, {16, 20 + 140}, {32, 0}, {32, 8 + 102 + 48 * 10}};

static const unsigned char hash_key[32] = {2};
static const unsigned char key[BLOCK] = {3};
static const unsigned char last[BLOCK] = {4};
static const unsigned char nonces[32] = {5};

static unsigned char text[MOST];
static unsigned char sent[MOST];
static unsigned char got[MOST];
static EVP_CIPHER_CTX *cipher;
static EVP_MD_CTX *hash;
static EVP_MAC_CTX *mac;

static void *must(void *made)
{
    if (made == NULL)
        exit(1);
    return made;
}

static void start(void)
{
    char name[] = "SHA256";
    OSSL_PARAM digest[] = {OSSL_PARAM_construct_utf8_string("digest", name, 0), OSSL_PARAM_construct_end()};
    cipher = must(EVP_CIPHER_CTX_new());
    hash = must(EVP_MD_CTX_new());
    mac = must(EVP_MAC_CTX_new(must(EVP_MAC_fetch(NULL, "HMAC", NULL))));
    if (!EVP_CipherInit_ex2(cipher, must(EVP_CIPHER_fetch(NULL, "AES-128-CBC", NULL)), key, last, 1, NULL)
        || !EVP_DigestInit_ex2(hash, must(EVP_MD_fetch(NULL, "SHA256", NULL)), NULL) || !EVP_MAC_CTX_set_params(mac, digest))
        exit(1);
    EVP_CIPHER_CTX_set_padding(cipher, 0);
}

/* The IV of a first message. */
static void first_iv(unsigned char *iv, const unsigned char *id)
{
    unsigned char digest[HASH];
    if (!EVP_DigestInit_ex2(hash, NULL, NULL) || !EVP_DigestUpdate(hash, last, BLOCK) || !EVP_DigestUpdate(hash, id, 4)
        || !EVP_DigestFinal_ex(hash, digest, NULL))
        exit(1);
    memcpy(iv, digest, BLOCK);
}

static void crypt(unsigned char *to, const unsigned char *from, size_t size, const unsigned char *iv, int seals)
{
    int written;
    if (!EVP_CipherInit_ex2(cipher, NULL, key, iv, seals, NULL) || !EVP_CipherUpdate(cipher, to, &written, from, size)
        || (size_t)written != size)
        exit(1);
}

/* The HASH of a message with these payloads. */
static void make_hash(unsigned char *to, int message, const unsigned char *id, const unsigned char *payloads)
{
    size_t written;
    if (!EVP_MAC_init(mac, hash_key, sizeof hash_key, NULL) || !EVP_MAC_update(mac, id, 4)
        || !EVP_MAC_update(mac, nonces, messages[message].nonces) || !EVP_MAC_update(mac, payloads, messages[message].payloads)
        || !EVP_MAC_final(mac, to, &written, HASH))
        exit(1);
}

/* Opens a message, or seals it; the IV is that of the next one then. */
static void pass(int message, const unsigned char *id, unsigned char *iv, int seals)
{
    unsigned char due[HASH];
    size_t size = (HASH_PAYLOAD + messages[message].payloads + BLOCK - 1) / BLOCK * BLOCK;
    if (seals)
        make_hash(text + 4, message, id, text + HASH_PAYLOAD);
    crypt(seals ? sent : got, seals ? text : sent, size, iv, seals);
    if (!seals)
        make_hash(due, message, id, got + HASH_PAYLOAD);
    memcpy(iv, sent + size - BLOCK, BLOCK);
}

static void pull(unsigned number)
{
    unsigned char id[4] = {0x80 | number >> 24, number >> 16, number >> 8, number}, iv[BLOCK];
    first_iv(iv, id);
    for (int message = 0; message < MESSAGES; message++)
        pass(message, id, iv, message % 2);
}

int main(int argc, char **argv)
{
    unsigned count;
    if (argc != 2)
        return 1;
    count = strtoul(argv[1], NULL, 10);
    start();
    for (unsigned i = 0; i < count; i++)
        pull(i);
    printf("%u pulls\n", count);
    return 0;
}
