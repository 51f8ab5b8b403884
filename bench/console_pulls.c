/* The messages of pulls (RFC 6407 section 3), for both sides of `console.c`: their header, their HASH, and the cipher under the keys of phase 1. */
#include "console_pulls.h"
#include <openssl/crypto.h>
#include <openssl/evp.h>
#include <openssl/params.h>
#include <stdlib.h>
#include <string.h>

#define DIGEST 32
#define HEAD 4
/* the first payload, the version, the exchange and the flags */
static const uint8_t head_word[] = {OF_HASH, 0x10, 32, 1};

static EVP_CIPHER_CTX *cipher;
static EVP_MD_CTX *digest;
static EVP_MAC_CTX *mac;

static void must(int done)
{
    if (!done)
        exit(1);
}

static void *made(void *object)
{
    must(object != NULL);
    return object;
}

void start_pulls(void)
{
    static const uint8_t none[16];
    char name[] = "SHA256";
    OSSL_PARAM of[] = {OSSL_PARAM_construct_utf8_string("digest", name, 0), OSSL_PARAM_construct_end()};
    cipher = made(EVP_CIPHER_CTX_new());
    digest = made(EVP_MD_CTX_new());
    mac = made(EVP_MAC_CTX_new(made(EVP_MAC_fetch(NULL, "HMAC", NULL))));
    must(EVP_CipherInit_ex2(cipher, made(EVP_CIPHER_fetch(NULL, "AES-128-CBC", NULL)), none, none, 1, NULL));
    must(EVP_DigestInit_ex2(digest, made(EVP_MD_fetch(NULL, "SHA256", NULL)), NULL) && EVP_MAC_CTX_set_params(mac, of));
    EVP_CIPHER_CTX_set_padding(cipher, 0);
}

static unsigned get2(const uint8_t *at)
{
    return at[0] << 8 | at[1];
}

static size_t get4(const uint8_t *at)
{
    return (size_t)get2(at) << 16 | get2(at + 2);
}

static void put_size(uint8_t *at, size_t size)
{
    at[0] = at[1] = 0;
    at[2] = size >> 8;
    at[3] = size;
}

void make_first_iv(struct pull *pull)
{
    uint8_t octets[DIGEST];
    must(EVP_DigestInit_ex2(digest, NULL, NULL) && EVP_DigestUpdate(digest, pull->phase.last, 16));
    must(EVP_DigestUpdate(digest, pull->message, 4) && EVP_DigestFinal_ex(digest, octets, NULL));
    memcpy(pull->iv, octets, 16);
}

void take_iv(struct pull *pull, const struct message *message)
{
    memcpy(pull->iv, message->octets + message->size - 16, 16);
}

static void crypt(uint8_t *to, const uint8_t *from, size_t size, const struct pull *pull, int seals)
{
    int written;
    must(EVP_CipherInit_ex2(cipher, NULL, pull->phase.key, pull->iv, seals, NULL));
    must(EVP_CipherUpdate(cipher, to, &written, from, size) && (size_t)written == size);
}

/* The HASH of a message with these payloads. */
static void make_hash(uint8_t *to, const struct pull *pull, int nonces, const uint8_t *payloads, size_t size)
{
    size_t written;
    must(EVP_MAC_init(mac, pull->phase.skeyid_a, sizeof pull->phase.skeyid_a, NULL) && EVP_MAC_update(mac, pull->message, 4));
    must(EVP_MAC_update(mac, pull->nonces, nonces * NONCE) && EVP_MAC_update(mac, payloads, size));
    must(EVP_MAC_final(mac, to, &written, DIGEST));
}

void seal_message(struct message *message, struct pull *pull, unsigned kind, const uint8_t *end, int nonces)
{
    uint8_t *octets = message->octets, *payloads = octets + PULL_HEADER;
    size_t used = end - payloads, size = (used + 15) / 16 * 16;
    message->size = PULL_HEADER + size;
    memcpy(octets, pull->phase.cookies, COOKIES);
    memcpy(octets + COOKIES, head_word, sizeof head_word);
    memcpy(octets + 20, pull->message, 4);
    put_size(octets + 24, message->size);
    put_size(payloads, HEAD + DIGEST);
    payloads[0] = kind;
    make_hash(payloads + HEAD, pull, nonces, octets + HASHED, end - (octets + HASHED));
    memset(payloads + used, 0, size - used);
    crypt(payloads, payloads, size, pull, 1);
    take_iv(pull, message);
}

int has_header(const struct message *message, const uint8_t *cookies, const uint8_t *id)
{
    static const uint8_t none[4];
    const uint8_t *octets = message->octets;
    if (message->size <= PULL_HEADER || (message->size - PULL_HEADER) % 16 != 0 || memcmp(octets + COOKIES + 1, head_word + 1, 3) != 0)
        return 0;
    if (memcmp(octets + 20, none, 4) == 0 || get4(octets + 24) != message->size || memcmp(octets, cookies, COOKIES) != 0)
        return 0;
    return id == NULL || memcmp(octets + 20, id, 4) == 0;
}

void open_message(uint8_t *text, const struct message *message, const struct pull *pull)
{
    crypt(text, message->octets + PULL_HEADER, message->size - PULL_HEADER, pull, 0);
}

const uint8_t *next_body(const uint8_t **at, const uint8_t *end, unsigned *named, unsigned kind, size_t *size)
{
    const uint8_t *head = *at;
    if (*named != kind || end - head < HEAD || head[1] != 0 || get2(head + 2) < HEAD || get2(head + 2) > end - head)
        return NULL;
    *named = head[0];
    *size = get2(head + 2) - HEAD;
    *at = head + HEAD + *size;
    return head + HEAD;
}

int ends_well(const uint8_t *text, const uint8_t *at, const uint8_t *end, unsigned named, const struct pull *pull, int nonces)
{
    const uint8_t *covered = text + HEAD + DIGEST;
    uint8_t due[DIGEST];
    if (named != 0 || end - at >= 16)
        return 0;
    for (const uint8_t *left = at; left != end; left++)
        if (*left != 0)
            return 0;
    make_hash(due, pull, nonces, covered, at - covered);
    return CRYPTO_memcmp(due, text + HEAD, DIGEST) == 0;
}
