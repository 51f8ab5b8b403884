/* The lines of `case_rooms` that begin with `store`, in C with openssl's library: gives each push to the stores of 16 members, and makes a store of each
   reply. A store does for each datagram what RFC 6407 section 4 asks of a member: it looks at the header, decrypts the rest under the root's key, reads all
   payloads, checks the signature and the number, and opens the keys of its path. It prints the same, without what a refusal says besides its kind. */
#define OPENSSL_SUPPRESS_DEPRECATED
#include <openssl/aes.h>
#include <openssl/crypto.h>
#include <openssl/evp.h>
#include <openssl/params.h>
#include <stdint.h>
#include <stdio.h>
#include <stdlib.h>
#include <string.h>

#define STORES 16
#define PATH 16
#define MOST 65507
#define LINE (2 * MOST + 100)
#define SPI 16
#define HASH 32
#define HEADER 28
#define PAYLOAD_HEAD 4
/* a key that an array gives, and the most of them in a datagram */
#define KEY 48
#define KEYS (MOST / KEY)
/* the kinds of payloads, of policies and of key packets */
enum { SA = 1, SIGNATURE = 9, KD = 17, SEQUENCE = 18, SAK = 15, SAT = 16, TEK = 1, LKH = 3 };
/* the algorithm of the signatures of tests, and the bits of their key */
enum { TEST_ALGORITHM = 128, TEST_KEY_BITS = 256 };
/* what a store answers */
enum answer { ROOT, TRAFFIC, OTHER_SPI, MALFORMED, BAD_SIGNATURE, STALE, NO_PATH, ANSWERS };

struct traffic {
    uint8_t cipher_key[16];
    uint8_t integrity_key[32];
    uint8_t spi[4];
};

struct path_key {
    uint16_t id;
    uint32_t made;
    uint8_t iv[16];
    uint8_t key[16];
};

struct store {
    uint8_t spi[SPI];
    int keys;
    struct path_key path[PATH];
    struct traffic traffic;
    uint32_t traffic_epoch, sequence;
};

/* A key that an array gives, and the key that seals it. */
struct given {
    uint16_t by, id;
    uint32_t by_made, made;
    const uint8_t *sealed;
};

/* What is read of a push: keys of the tree, or else the traffic key. */
struct push {
    uint32_t number;
    int is_membership;
    const uint8_t *kek_spi, *tek_spi, *spi;
    struct traffic traffic;
    int keys;
    struct given given[KEYS];
    const uint8_t *signature;
    size_t signature_size;
};

/* What is left of a text. */
struct text {
    const uint8_t *at, *end;
};

/* The numbers that an attribute may have in the short form, and whether it may have 4 octets in the long one. */
struct rule {
    int is_due, least, most, is_long;
};

/* for the attributes of the KEK and of the TEK, by their kinds */
#define KINDS 8
static const struct rule kek_rules[KINDS] = {
    [1] = {1, 1, 1, 0}, [2] = {1, 3, 3, 0},     [3] = {1, 128, 128, 0}, [4] = {1, 0, 65535, 1},
    [5] = {1, 3, 3, 0}, [6] = {1, 0, 65535, 0}, [7] = {1, 0, 65535, 0},
};
static const struct rule tek_rules[KINDS] = {
    [1] = {1, 1, 1, 0}, [2] = {1, 0, 65535, 1}, [4] = {1, 1, 2, 0}, [5] = {1, 5, 5, 0}, [6] = {1, 128, 128, 0},
};
static const char hash_key[] = "gdoi test signer";

static struct store store[STORES];
static unsigned stores;
static char line[LINE];
static uint8_t octets[MOST], room[MOST];
static struct push push;
/* what a store answers, in words */
static const char *const words[ANSWERS] = {"root", "traffic", "OtherSpi", "Malformed", "BadSignature", "Stale", "NoPath"};
static EVP_CIPHER_CTX *cipher;
static EVP_MD_CTX *hash;
static EVP_MAC_CTX *mac;

static void must(int done)
{
    if (!done)
        exit(1);
}

static void *made(void *object)
{
    must(object != NULL);
    return object;
}

/* The ciphers of pushes, once for all. */
static void start_ciphers(void)
{
    static const uint8_t none[16];
    char name[] = "SHA256";
    OSSL_PARAM digest[] = {OSSL_PARAM_construct_utf8_string("digest", name, 0), OSSL_PARAM_construct_end()};
    cipher = made(EVP_CIPHER_CTX_new());
    hash = made(EVP_MD_CTX_new());
    mac = made(EVP_MAC_CTX_new(made(EVP_MAC_fetch(NULL, "HMAC", NULL))));
    must(EVP_CipherInit_ex2(cipher, made(EVP_CIPHER_fetch(NULL, "AES-128-CBC", NULL)), none, none, 0, NULL));
    must(EVP_DigestInit_ex2(hash, made(EVP_MD_fetch(NULL, "SHA256", NULL)), NULL) && EVP_MAC_CTX_set_params(mac, digest));
    EVP_CIPHER_CTX_set_padding(cipher, 0);
}

static unsigned get2(const uint8_t *at)
{
    return at[0] << 8 | at[1];
}

static uint32_t get4(const uint8_t *at)
{
    return (uint32_t)get2(at) << 16 | get2(at + 2);
}

/* The next octets, so many, or none. */
static const uint8_t *take(struct text *text, size_t size)
{
    const uint8_t *at = text->at;
    if ((size_t)(text->end - at) < size)
        return NULL;
    text->at += size;
    return at;
}

/* A payload, a policy or a key packet with its head: the octet at its start, and its body. */
static int section(struct text *text, unsigned *kind, struct text *body)
{
    const uint8_t *head = take(text, PAYLOAD_HEAD);
    if (head == NULL || head[1] != 0 || get2(head + 2) < PAYLOAD_HEAD)
        return 0;
    *kind = head[0];
    body->at = take(text, get2(head + 2) - PAYLOAD_HEAD);
    body->end = text->at;
    return body->at != NULL;
}

/* Two identifications of any kind. */
static int endpoints(struct text *text)
{
    for (int i = 0; i < 2; i++) {
        const uint8_t *head = take(text, 4);
        if (head == NULL || take(text, head[3]) == NULL)
            return 0;
    }
    return 1;
}

/* The attributes of a policy, in any order, each that is due once: their numbers, up to the end. */
static int attributes(struct text *text, const struct rule *rules, int due, unsigned *numbers)
{
    unsigned seen = 0;
    for (; due > 0; due--) {
        const uint8_t *at = take(text, 4);
        unsigned kind, number;
        if (at == NULL)
            return 0;
        kind = get2(at) & 0x7fff;
        number = get2(at + 2);
        if (kind >= KINDS || !rules[kind].is_due || seen >> kind & 1)
            return 0;
        seen |= 1u << kind;
        if (at[0] & 0x80) {
            if ((int)number < rules[kind].least || (int)number > rules[kind].most)
                return 0;
            numbers[kind] = number;
        } else if (!rules[kind].is_long || number != 4 || take(text, 4) == NULL)
            return 0;
    }
    return text->at == text->end;
}

/* The policy of the KEK: its SPI, and that its pushes are signed as in tests. */
static int kek_policy(struct text text)
{
    unsigned numbers[KINDS] = {0};
    const uint8_t *reserved;
    if (take(&text, 1) == NULL || !endpoints(&text) || (push.kek_spi = take(&text, SPI)) == NULL || (reserved = take(&text, 4)) == NULL)
        return 0;
    return get4(reserved) == 0 && attributes(&text, kek_rules, 7, numbers) && numbers[6] == TEST_ALGORITHM && numbers[7] == TEST_KEY_BITS;
}

/* The policy of the TEK: its SPI. */
static int tek_policy(struct text text)
{
    unsigned numbers[KINDS] = {0};
    const uint8_t *head = take(&text, 2), *transform;
    if (head == NULL || head[0] != 1 || !endpoints(&text) || (transform = take(&text, 1)) == NULL || *transform != 12)
        return 0;
    push.tek_spi = take(&text, 4);
    return push.tek_spi != NULL && attributes(&text, tek_rules, 5, numbers);
}

/* One policy: that of the KEK for this SPI, or that of the TEK. */
static int read_policies(struct text text, const uint8_t *spi)
{
    const uint8_t *head = take(&text, 12);
    struct text body;
    unsigned kind, next;
    if (head == NULL || get4(head) != 2 || get4(head + 4) != 0 || get2(head + 10) != 0)
        return 0;
    kind = get2(head + 8);
    if ((kind != SAK && kind != SAT) || !section(&text, &next, &body) || next != 0 || text.at != text.end)
        return 0;
    push.is_membership = kind == SAK;
    return push.is_membership ? kek_policy(body) && memcmp(push.kek_spi, spi, SPI) == 0 : tek_policy(body);
}

/* Both keys of the traffic, in any order. */
static int traffic_keys(struct text *text)
{
    unsigned first = 0;
    for (int i = 0; i < 2; i++) {
        const uint8_t *head = take(text, 4), *key;
        unsigned kind, size;
        if (head == NULL)
            return 0;
        kind = get2(head);
        size = get2(head + 2);
        if ((kind != 1 && kind != 2) || kind == first || size != 16 * kind || (key = take(text, size)) == NULL)
            return 0;
        memcpy(kind == 1 ? push.traffic.cipher_key : push.traffic.integrity_key, key, size);
        first = kind;
    }
    return text->at == text->end;
}

static int read_traffic(struct text text)
{
    const uint8_t *head = take(&text, 5);
    if (head == NULL || head[0] != 4 || memcmp(head + 1, push.tek_spi, 4) != 0)
        return 0;
    memcpy(push.traffic.spi, head + 1, 4);
    return traffic_keys(&text);
}

/* Passes over attributes with keys that check signatures. */
static int signature_keys(struct text *text)
{
    while (text->end - text->at >= 2 && (get2(text->at) & 0x7fff) == 3) {
        const uint8_t *head = take(text, 4);
        if (head == NULL || (!(head[0] & 0x80) && take(text, get2(head + 2)) == NULL))
            return 0;
    }
    return 1;
}

/* The keys of an array. All keys of a push are of one epoch. */
static int read_array(struct text *text)
{
    const uint8_t *head = take(text, 16), *key;
    unsigned by, count;
    uint32_t by_made;
    if (head == NULL || get2(head) != 2 || head[4] != 1 || head[7] != 0 || get2(head + 10) != 0)
        return 0;
    count = get2(head + 5);
    by = get2(head + 8);
    by_made = get4(head + 12);
    if (count == 0 || by == 0 || get2(head + 2) != 12 + KEY * count)
        return 0;
    for (; count > 0; count--) {
        struct given *given = push.given + push.keys;
        if ((key = take(text, KEY)) == NULL || get2(key) == 0 || key[2] != 3 || key[3] != 0)
            return 0;
        *given = (struct given){by, get2(key), by_made, get4(key + 12), key + 16};
        if (given->made != push.given[0].made)
            return 0;
        by = given->id;
        by_made = given->made;
        push.keys++;
    }
    return 1;
}

/* The arrays of a packet for the tree, up to its end; one of the keys has to be the root's. */
static int read_arrays(struct text text, const uint8_t *spi)
{
    const uint8_t *head = take(&text, 1 + SPI);
    int has_root = 0;
    if (head == NULL || head[0] != SPI || memcmp(head + 1, spi, SPI) != 0)
        return 0;
    push.keys = 0;
    if (!signature_keys(&text))
        return 0;
    do {
        if (!read_array(&text) || !signature_keys(&text))
            return 0;
    } while (text.at != text.end);
    for (int i = 0; i < push.keys; i++)
        has_root |= push.given[i].id == 1;
    return has_root;
}

/* The key download that suits the policy. */
static int read_keys(struct text text, const uint8_t *spi)
{
    const uint8_t *head = take(&text, 4);
    struct text body;
    unsigned kind;
    if (head == NULL || get2(head) != 1 || get2(head + 2) != 0 || !section(&text, &kind, &body) || text.at != text.end)
        return 0;
    if (kind != (push.is_membership ? LKH : TEK))
        return 0;
    return push.is_membership ? read_arrays(body, spi) : read_traffic(body);
}

/* A payload of a kind that was named before. */
static int payload(struct text *text, unsigned due, unsigned *named, struct text *body)
{
    return *named == due && section(text, named, body);
}

/* The payloads of a push; gives how many octets come before that of the signature. */
static int read_payloads(struct text text, unsigned named, const uint8_t *spi, size_t *is_signed)
{
    const uint8_t *start = text.at;
    struct text body;
    if (!payload(&text, SEQUENCE, &named, &body) || body.end - body.at != 4)
        return 0;
    push.number = get4(body.at);
    if (!payload(&text, SA, &named, &body) || !read_policies(body, spi))
        return 0;
    if (!payload(&text, KD, &named, &body) || !read_keys(body, spi))
        return 0;
    *is_signed = text.at - start;
    if (!payload(&text, SIGNATURE, &named, &body) || named != 0)
        return 0;
    push.signature = body.at;
    push.signature_size = body.end - body.at;
    if (push.signature_size < 1 || push.signature_size > 512 || text.end - text.at >= 16)
        return 0;
    for (; text.at != text.end; text.at++)
        if (*text.at != 0)
            return 0;
    return 1;
}

/* Whether the signature is that of a header and payloads. */
static int is_accepted(const uint8_t *header, const uint8_t *payloads, size_t size)
{
    uint8_t digest[HASH], due[HASH];
    size_t written;
    must(EVP_DigestInit_ex2(hash, NULL, NULL) && EVP_DigestUpdate(hash, "rekey", 5) && EVP_DigestUpdate(hash, header, HEADER));
    must(EVP_DigestUpdate(hash, payloads, size) && EVP_DigestFinal_ex(hash, digest, NULL));
    must(EVP_MAC_init(mac, (const uint8_t *)hash_key, sizeof hash_key - 1, NULL) && EVP_MAC_update(mac, digest, HASH));
    must(EVP_MAC_final(mac, due, &written, HASH));
    return push.signature_size == HASH && CRYPTO_memcmp(due, push.signature, HASH) == 0;
}

/* The place of a position on a path, or less than 0. */
static int place_on(const struct store *store, unsigned id)
{
    for (int i = 0; i < store->keys; i++)
        if (store->path[i].id == id)
            return i;
    return -1;
}

/* A given key, opened by another one. */
static void open_key(struct path_key *opened, const struct path_key *by, const struct given *given)
{
    uint8_t iv[16], data[32];
    AES_KEY key;
    memcpy(iv, by->iv, sizeof iv);
    AES_set_decrypt_key(by->key, 128, &key);
    AES_cbc_encrypt(given->sealed, data, sizeof data, &key, iv, AES_DECRYPT);
    opened->id = given->id;
    opened->made = given->made;
    memcpy(opened->iv, data, 16);
    memcpy(opened->key, data + 16, 16);
}

/* The key that seals a given one: of those that were opened, or else of the path. */
static const struct path_key *sealer(const struct store *store, const struct path_key *opened, unsigned have, const struct given *given)
{
    int at = place_on(store, given->by);
    if (at < 0)
        return NULL;
    if (have >> at & 1 && opened[at].made == given->by_made)
        return opened + at;
    return store->path[at].made == given->by_made ? store->path + at : NULL;
}

/* Opens the keys of the path, over and over until none can be; keeps them if that of the root is among them. */
static int take_keys(struct store *store)
{
    struct path_key opened[PATH];
    unsigned have = 0, before;
    do {
        before = have;
        for (int i = 0; i < push.keys; i++) {
            const struct given *given = push.given + i;
            const struct path_key *by;
            int at = place_on(store, given->id);
            if (at < 0 || have >> at & 1 || (by = sealer(store, opened, have, given)) == NULL)
                continue;
            open_key(opened + at, by, given);
            have |= 1u << at;
        }
    } while (have != before);
    if (!(have >> (store->keys - 1) & 1))
        return 0;
    for (int i = 0; i < store->keys; i++)
        if (have >> i & 1)
            store->path[i] = opened[i];
    return 1;
}

static enum answer accept(struct store *store, const uint8_t *datagram, size_t size)
{
    const struct path_key *root = store->path + store->keys - 1;
    size_t is_signed;
    int written;
    if (size < HEADER || size > MOST || datagram[17] != 0x10 || datagram[18] != 33 || datagram[19] != 1 || get4(datagram + 20) != 0
        || get4(datagram + 24) != size || size == HEADER || (size - HEADER) % 16 != 0)
        return MALFORMED;
    if (memcmp(datagram, store->spi, SPI) != 0)
        return OTHER_SPI;
    must(EVP_CipherInit_ex2(cipher, NULL, root->key, root->iv, 0, NULL));
    must(EVP_CipherUpdate(cipher, room, &written, datagram + HEADER, size - HEADER) && written == (int)(size - HEADER));
    if (!read_payloads((struct text){room, room + written}, datagram[16], store->spi, &is_signed))
        return MALFORMED;
    if (!is_accepted(datagram, room, is_signed))
        return BAD_SIGNATURE;
    if (push.number <= store->sequence)
        return STALE;
    if (push.is_membership) {
        if (!take_keys(store))
            return NO_PATH;
        store->sequence = push.number;
        return ROOT;
    }
    store->traffic = push.traffic;
    store->traffic_epoch = root->made;
    store->sequence = push.number;
    return TRAFFIC;
}

/* A reply: the key download of a registration, as the server writes it. */
static void read_reply(struct store *told, struct text text)
{
    const uint8_t *head = take(&text, 69), *lkh = take(&text, 5 + SPI + 8), *key = NULL;
    must(head != NULL && lkh != NULL);
    memcpy(told->traffic.spi, head + 9, 4);
    memcpy(told->traffic.cipher_key, head + 17, 16);
    memcpy(told->traffic.integrity_key, head + 37, 32);
    memcpy(told->spi, lkh + 5, SPI);
    told->keys = lkh[5 + SPI + 6];
    must(2 <= told->keys && told->keys <= PATH);
    for (int i = 0; i < told->keys; i++) {
        must((key = take(&text, KEY)) != NULL);
        told->path[i].id = get2(key);
        told->path[i].made = get4(key + 12);
        memcpy(told->path[i].iv, key + 16, 16);
        memcpy(told->path[i].key, key + 32, 16);
    }
    must(text.at == text.end && get2(key) == 1);
    told->traffic_epoch = get4(key + 12);
}

/* What came of it, and where a store is. */
static void print_store(unsigned number, const char *answer)
{
    const struct store *of = store + number;
    printf(" / m%u %s %u %u %u", number, answer, of->path[of->keys - 1].made, of->traffic_epoch, of->sequence);
}

/* Makes a store, or makes it anew by what is not older than what it has. */
static void tell(unsigned number, uint32_t last, struct text text)
{
    struct store told, *old = store + number;
    int is_new = number == stores, is_older = 0;
    told.sequence = last;
    read_reply(&told, text);
    if (is_new)
        must(++stores <= STORES);
    else {
        must(number < stores);
        is_older = told.sequence < old->sequence || (told.sequence == old->sequence && told.traffic_epoch < old->path[old->keys - 1].made);
    }
    if (!is_older)
        *old = told;
    printf("tell");
    print_store(number, is_new ? "made" : is_older ? "Older" : "renewed");
    printf("\n");
}

/* Gives a push to all stores. */
static void give(const uint8_t *datagram, size_t size)
{
    printf("push");
    for (unsigned i = 0; i < stores; i++)
        print_store(i, words[accept(store + i, datagram, size)]);
    printf("\n");
}

static unsigned digit(char letter)
{
    return letter <= '9' ? letter - '0' : letter - 'a' + 10;
}

/* The octets that a word is in hexadecimal, up to the end of the line. */
static struct text octets_of(const char *word)
{
    uint8_t *at = octets;
    for (; *word > ' '; word += 2)
        *at++ = digit(word[0]) << 4 | digit(word[1]);
    return (struct text){octets, at};
}

int main(void)
{
    unsigned number, last;
    int at;
    start_ciphers();
    while (fgets(line, sizeof line, stdin) != NULL) {
        at = 0;
        if (sscanf(line, "store tell m%u %u %n", &number, &last, &at) == 2 && at > 0)
            tell(number, last, octets_of(line + at));
        else {
            must(strncmp(line, "store push ", 11) == 0);
            struct text text = octets_of(line + 11);
            give(octets, text.end - octets);
        }
    }
    return 0;
}
