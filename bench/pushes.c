/* The membership push of a batch with 286 update arrays by openssl's library, written or opened N times. Each push that is written is
   encrypted under the last octets of the one before; one that is opened stays the same. The signature is HMAC with SHA-256. It prints what
   `case_rooms` (`repeat push-write N` and `repeat push-open N`) does. */
#include <openssl/crypto.h>
#include <openssl/evp.h>
#include <openssl/params.h>
#include <stdio.h>
#include <stdlib.h>
#include <string.h>

#define ARRAYS 286
#define HEADER 28
#define PAYLOAD_HEAD 4
#define SPI 16
#define HASH 32
#define ARRAY 64
#define PACKET_HEAD 21
#define KD_SIZE (PAYLOAD_HEAD + 4 + PACKET_HEAD + ARRAY * ARRAYS)
#define MOST 65507
/* the first payload, the version, the exchange and the flags */
#define HEAD_WORD (18 << 24 | 0x10 << 16 | 33 << 8 | 1)

static const unsigned char spi[SPI] = {6, 6, 6, 6, 6, 6, 6, 6, 6, 6, 6, 6, 6, 6, 6, 6};
static const unsigned char sa_head[] = {0, 0, 0, 2, 0, 0, 0, 0, 0, 15, 0, 0};
static const unsigned char sa_addresses[] = {0, 0, 0, 73, 17, 1, 3, 80, 4, 192, 0, 2, 1, 1, 3, 80, 4, 233, 252, 0, 1};
static const unsigned char sa_attributes[] = {0, 0, 0, 0,  0x80, 1, 0, 1,     0x80, 2, 0, 3, 0x80, 3, 0, 128,  0, 4, 0, 4,
                                              0, 1, 81, 128, 0x80, 5, 0, 3, 0x80, 6, 0, 128, 0x80, 7, 1, 0};
static const char hash_key[] = "gdoi test signer";
static const unsigned char iv[16] = {2, 2, 2, 2, 2, 2, 2, 2, 2, 2, 2, 2, 2, 2, 2, 2};

static unsigned char arrays[ARRAY * ARRAYS];
static unsigned char push[MOST];
static unsigned char room[MOST];
static EVP_CIPHER_CTX *cipher;
static EVP_MD_CTX *hash;
static EVP_MAC_CTX *mac;

static void *must(void *made)
{
    if (made == NULL)
        exit(1);
    return made;
}

static void start(void)
{
    char name[] = "SHA256";
    OSSL_PARAM digest[] = {OSSL_PARAM_construct_utf8_string("digest", name, 0), OSSL_PARAM_construct_end()};
    cipher = must(EVP_CIPHER_CTX_new());
    hash = must(EVP_MD_CTX_new());
    mac = must(EVP_MAC_CTX_new(must(EVP_MAC_fetch(NULL, "HMAC", NULL))));
    if (!EVP_CipherInit_ex2(cipher, must(EVP_CIPHER_fetch(NULL, "AES-128-CBC", NULL)), iv, iv, 1, NULL)
        || !EVP_DigestInit_ex2(hash, must(EVP_MD_fetch(NULL, "SHA256", NULL)), NULL) || !EVP_MAC_CTX_set_params(mac, digest))
        exit(1);
    EVP_CIPHER_CTX_set_padding(cipher, 0);
}

static unsigned char *put2(unsigned char *at, unsigned number)
{
    at[0] = number >> 8;
    at[1] = number;
    return at + 2;
}

static unsigned char *put4(unsigned char *at, unsigned number)
{
    return put2(put2(at, number >> 16), number);
}

static unsigned char *put(unsigned char *at, const void *octets, size_t size)
{
    memcpy(at, octets, size);
    return at + size;
}

static unsigned char *put_head(unsigned char *at, unsigned next, unsigned size)
{
    return put2(put2(at, next << 8), size);
}

static unsigned get2(const unsigned char *at)
{
    return at[0] << 8 | at[1];
}

static unsigned get4(const unsigned char *at)
{
    return get2(at) << 16 | get2(at + 2);
}

static void crypt(unsigned char *to, const unsigned char *from, size_t size, const unsigned char *key, int seals)
{
    int written;
    if (!EVP_CipherInit_ex2(cipher, NULL, key, iv, seals, NULL) || !EVP_CipherUpdate(cipher, to, &written, from, size)
        || (size_t)written != size)
        exit(1);
}

/* Signs a header and payloads. */
static void sign(unsigned char *signature, const unsigned char *header, const unsigned char *payloads, size_t size)
{
    unsigned char digest[HASH];
    size_t written;
    if (!EVP_DigestInit_ex2(hash, NULL, NULL) || !EVP_DigestUpdate(hash, "rekey", 5) || !EVP_DigestUpdate(hash, header, HEADER)
        || !EVP_DigestUpdate(hash, payloads, size) || !EVP_DigestFinal_ex(hash, digest, NULL)
        || !EVP_MAC_init(mac, (const unsigned char *)hash_key, 16, NULL) || !EVP_MAC_update(mac, digest, HASH)
        || !EVP_MAC_final(mac, signature, &written, HASH))
        exit(1);
}

/* The arrays: all give one key of the root, sealed under another. */
static void write_arrays(const unsigned char *key)
{
    unsigned char data[32];
    memset(data, 3, 16);
    memset(data + 16, 4, 16);
    for (int k = 0; k < ARRAYS; k++) {
        unsigned char *array = arrays + ARRAY * k;
        put2(array, 2);
        put2(array + 2, 60);
        array[4] = 1;
        put2(array + 5, 1);
        put2(array + 8, 1);
        put4(array + 12, 1);
        put2(array + 16, 1);
        array[18] = 3;
        put4(array + 28, 1);
        crypt(array + 32, data, sizeof data, key, 1);
    }
}

/* Writes the push under a key, and gives its size. */
static size_t write_push(const unsigned char *key)
{
    unsigned char *payloads = push + HEADER, *at;
    size_t size;
    at = put4(put_head(payloads, 1, 8), 1);
    at = put_head(at, 17, PAYLOAD_HEAD + sizeof sa_head + sizeof sa_addresses + SPI + sizeof sa_attributes);
    at = put(at, sa_head, sizeof sa_head);
    at = put(at, sa_addresses, sizeof sa_addresses);
    at = put(at, spi, SPI);
    at = put(at, sa_attributes, sizeof sa_attributes);
    at = put_head(at, 9, KD_SIZE);
    at = put4(at, 1 << 16);
    at = put_head(at, 3, PACKET_HEAD + sizeof arrays);
    *at++ = SPI;
    at = put(at, spi, SPI);
    at = put(at, arrays, sizeof arrays);
    size = (at - payloads + PAYLOAD_HEAD + HASH + 15) / 16 * 16;
    put4(put4(put4(put(push, spi, SPI), HEAD_WORD), 0), HEADER + size);
    sign(put_head(at, 0, PAYLOAD_HEAD + HASH), push, payloads, at - payloads);
    at += PAYLOAD_HEAD + HASH;
    memset(at, 0, payloads + size - at);
    crypt(payloads, payloads, size, key, 1);
    return HEADER + size;
}

/* The body of the payload at a place, before one of this kind; tells what is after it. */
static const unsigned char *body(const unsigned char *at, const unsigned char *end, unsigned next, const unsigned char **after)
{
    if (end - at < PAYLOAD_HEAD || at[0] != next || at[1] != 0 || get2(at + 2) < PAYLOAD_HEAD || get2(at + 2) > end - at)
        exit(1);
    *after = at + get2(at + 2);
    return at + PAYLOAD_HEAD;
}

/* The lengths and the reserved octets of an array with one key, and that it is of this epoch. */
static int array_fits(const unsigned char *at, unsigned made)
{
    return get2(at) == 2 && get2(at + 2) == 60 && at[4] == 1 && get2(at + 5) == 1 && at[7] == 0 && get2(at + 8) != 0 && get2(at + 10) == 0
        && get2(at + 16) != 0 && at[18] == 3 && at[19] == 0 && get4(at + 20) == 0 && get4(at + 24) == 0 && get4(at + 28) == made;
}

static void check_keys(const unsigned char *at, const unsigned char *end)
{
    unsigned made, has_root = 0;
    if (end - at < 4 + PACKET_HEAD + ARRAY || get4(at) != 1 << 16 || at[4] != 3 || at[5] != 0 || get2(at + 6) != end - at - 4
        || at[8] != SPI || memcmp(at + 9, spi, SPI) != 0)
        exit(1);
    at += 4 + PACKET_HEAD;
    made = get4(at + 28);
    for (; at != end; at += ARRAY) {
        if (end - at < ARRAY || !array_fits(at, made))
            exit(1);
        has_root |= get2(at + 16) == 1;
    }
    if (!has_root)
        exit(1);
}

/* Opens the push under a key into the room, and gives the place after its key download. */
static const unsigned char *open_push(size_t size, const unsigned char *key)
{
    const unsigned char *number, *policy, *keys, *signature, *sa, *kd, *sig, *end;
    unsigned char due[HASH];
    if (size < HEADER || memcmp(push, spi, SPI) != 0 || get4(push + 16) != HEAD_WORD || get4(push + 20) != 0 || get4(push + 24) != size
        || (size - HEADER) % 16 != 0)
        exit(1);
    crypt(room, push + HEADER, size - HEADER, key, 0);
    end = room + size - HEADER;
    number = body(room, end, 1, &sa);
    policy = body(sa, end, 17, &kd);
    keys = body(kd, end, 9, &sig);
    signature = body(sig, end, 0, &end);
    if (sa - number != 4 || kd - policy != 85 || memcmp(policy, sa_head, sizeof sa_head) != 0 || end - signature != HASH)
        exit(1);
    check_keys(keys, sig);
    for (const unsigned char *at = end; at != room + size - HEADER; at++)
        if (*at != 0)
            exit(1);
    sign(due, push, room, sig - room);
    if (CRYPTO_memcmp(due, signature, HASH) != 0 || get4(number) == 0)
        exit(1);
    return sig;
}

int main(int argc, char **argv)
{
    unsigned char key[16];
    const unsigned char *last = key;
    size_t size;
    long count;
    if (argc != 3)
        return 1;
    count = atol(argv[2]);
    memset(key, 5, sizeof key);
    start();
    write_arrays(key);
    if (strcmp(argv[1], "write") == 0) {
        for (long i = 0; i < count; i++) {
            size = write_push(key);
            memcpy(key, push + size - sizeof key, sizeof key);
        }
    } else {
        size = write_push(key);
        for (long i = 0; i < count; i++)
            last = open_push(size, key) - 16;
    }
    for (int i = 0; i < 16; i++)
        printf("%02x", last[i]);
    printf("\n");
    return 0;
}
