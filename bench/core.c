/* The works of `case_rooms` (`core work PATH DEPTH WORD ..`) in C with openssl's library: the same batches in a key tree that is changed in place, with the
   same values, pushes and replies, and the same calls to the file. It has the kind of the batches and how many there are as words, and prints the same. */
#define OPENSSL_SUPPRESS_DEPRECATED
#include <fcntl.h>
#include <openssl/aes.h>
#include <openssl/evp.h>
#include <openssl/params.h>
#include <stdint.h>
#include <stdio.h>
#include <stdlib.h>
#include <string.h>
#include <unistd.h>

#define DEEPEST 9
#define LEAVES (1 << DEEPEST)
#define CHANGES 32
#define NAME 32
/* places of the table of members: more than twice as many as there are leaves */
#define PLACES (4 * LEAVES)
/* the positions that a batch renews: a path for each change, and the root */
#define RENEWED (CHANGES * (DEEPEST + 1) + 1)
/* a length, the most octets of a body, and a closed gate */
#define MOST 65536
#define PIECE (4 + MOST + 1)
/* the place of the first record's gate */
#define FIRST 9
#define SPI 16
#define HASH 32
#define ARRAY 64
#define HEADER 28
#define PAYLOAD_HEAD 4
#define PACKET_HEAD 21
/* the first payload, the version, the exchange and the flags */
#define HEAD_WORD (18 << 24 | 0x10 << 16 | 33 << 8 | 1)

struct name {
    uint8_t size;
    uint8_t octets[NAME];
};

struct change {
    int in;
    struct name member;
};

struct value {
    uint8_t iv[16];
    uint8_t key[16];
};

struct traffic {
    uint8_t cipher_key[16];
    uint8_t integrity_key[32];
    uint8_t spi[4];
};

/* A position: the epoch that gave it its key, that value, and how many members stand at it or below it. `changed` is the last epoch in which a
   leaf there changed hands. */
struct position {
    uint32_t made, changed;
    uint16_t below;
    struct value value;
};

/* Each leaf has a holder, or none, whose size is 0. `place_of` finds the leaf of a member by its name: the leaf and one, or 0. */
struct tree {
    unsigned depth, members, lowest_free;
    uint32_t epoch, sequence;
    uint8_t spi[SPI];
    struct position position[2 * LEAVES];
    struct name holder[LEAVES];
    uint16_t place_of[PLACES];
};

/* A key of a position that is sealed under that of another one. */
struct wrap {
    uint16_t by, gives;
};

struct path_key {
    uint16_t id;
    uint32_t made;
    struct value value;
};

/* What a member is told that comes in. */
struct reply {
    uint32_t epoch, sequence;
    uint8_t spi[SPI];
    int keys;
    struct path_key path[DEEPEST + 1];
    struct traffic traffic;
};

struct work {
    unsigned changes, filling;
};

struct tally {
    uint64_t wraps, octets, keys, sum;
};

static const uint8_t sa_head[] = {0, 0, 0, 2, 0, 0, 0, 0, 0};
static const uint8_t kek_addresses[] = {0, 0, 0, 73, 17, 1, 3, 80, 4, 192, 0, 2, 1, 1, 3, 80, 4, 233, 252, 0, 1};
static const uint8_t kek_attributes[] = {0, 0, 0, 0,  0x80, 1, 0, 1,     0x80, 2, 0, 3, 0x80, 3, 0, 128,  0, 4, 0, 4,
                                         0, 1, 81, 128, 0x80, 5, 0, 3, 0x80, 6, 0, 128, 0x80, 7, 1, 0};
static const uint8_t tek_addresses[] = {0, 0, 0, 51, 1, 17, 1, 0, 0, 4, 192, 0, 2, 1, 1, 0, 0, 4, 233, 252, 0, 1, 12};
static const uint8_t tek_attributes[] = {0x80, 1, 0, 1, 0, 2, 0, 4, 0, 0, 14, 16, 0x80, 4, 0, 1, 0x80, 5, 0, 5, 0x80, 6, 0, 128};
static const char hash_key[] = "gdoi test signer";
static const char group_name[] = "console";

static struct tree tree;
static struct tally tally;
static struct reply reply[CHANGES];
static uint8_t piece[PIECE];
static uint8_t push[MOST];
/* the file, and the place of its closed gate */
static int file;
static off_t gate;
static EVP_CIPHER_CTX *cipher;
static EVP_MD_CTX *hash;
static EVP_MAC_CTX *mac;

static void must(int done)
{
    if (!done)
        exit(1);
}

static void *made(void *object)
{
    must(object != NULL);
    return object;
}

/* The ciphers of pushes, once for all. */
static void start_ciphers(void)
{
    static const uint8_t none[16];
    char name[] = "SHA256";
    OSSL_PARAM digest[] = {OSSL_PARAM_construct_utf8_string("digest", name, 0), OSSL_PARAM_construct_end()};
    cipher = made(EVP_CIPHER_CTX_new());
    hash = made(EVP_MD_CTX_new());
    mac = made(EVP_MAC_CTX_new(made(EVP_MAC_fetch(NULL, "HMAC", NULL))));
    must(EVP_CipherInit_ex2(cipher, made(EVP_CIPHER_fetch(NULL, "AES-128-CBC", NULL)), none, none, 1, NULL));
    must(EVP_DigestInit_ex2(hash, made(EVP_MD_fetch(NULL, "SHA256", NULL)), NULL) && EVP_MAC_CTX_set_params(mac, digest));
    EVP_CIPHER_CTX_set_padding(cipher, 0);
}

static uint8_t *put2(uint8_t *at, unsigned number)
{
    at[0] = number >> 8;
    at[1] = number;
    return at + 2;
}

static uint8_t *put4(uint8_t *at, uint32_t number)
{
    return put2(put2(at, number >> 16), number);
}

static uint8_t *put(uint8_t *at, const void *octets, size_t size)
{
    memcpy(at, octets, size);
    return at + size;
}

/* Draws: words of the key stream of ChaCha20, each with the high octet first. Its key has zeros, and then the number of a stream. */
struct draws {
    uint64_t blocks;
    unsigned used;
    uint8_t stream, octets[64];
};

/* those of the server */
static struct draws draws;

static uint32_t turned(uint32_t word, int by)
{
    return word << by | word >> (32 - by);
}

static void quarter(uint32_t *a, uint32_t *b, uint32_t *c, uint32_t *d)
{
    *a += *b, *d = turned(*d ^ *a, 16);
    *c += *d, *b = turned(*b ^ *c, 12);
    *a += *b, *d = turned(*d ^ *a, 8);
    *c += *d, *b = turned(*b ^ *c, 7);
}

static void next_block(struct draws *from)
{
    uint32_t first[16] = {0x61707865, 0x3320646e, 0x79622d32, 0x6b206574}, x[16];
    first[11] = (uint32_t)from->stream << 24;
    first[12] = from->blocks;
    first[13] = from->blocks >> 32;
    memcpy(x, first, sizeof x);
    for (int i = 0; i < 10; i++) {
        quarter(x, x + 4, x + 8, x + 12);
        quarter(x + 1, x + 5, x + 9, x + 13);
        quarter(x + 2, x + 6, x + 10, x + 14);
        quarter(x + 3, x + 7, x + 11, x + 15);
        quarter(x, x + 5, x + 10, x + 15);
        quarter(x + 1, x + 6, x + 11, x + 12);
        quarter(x + 2, x + 7, x + 8, x + 13);
        quarter(x + 3, x + 4, x + 9, x + 14);
    }
    for (int i = 0; i < 16; i++)
        put4(from->octets + 4 * i, x[i] + first[i]);
    from->blocks++;
    from->used = 0;
}

static void start_draws(struct draws *from, uint8_t stream)
{
    from->blocks = 0;
    from->stream = stream;
    next_block(from);
}

static void draw_from(struct draws *from, uint8_t *octets)
{
    if (from->used == sizeof from->octets)
        next_block(from);
    memcpy(octets, from->octets + from->used, 16);
    from->used += 16;
}

static void draw(uint8_t *octets)
{
    draw_from(&draws, octets);
}

/* Writes octets at a place, and waits until all is on the device. */
static void write_through(off_t at, const void *octets, size_t size)
{
    must(pwrite(file, octets, size, at) == (ssize_t)size);
    must(fsync(file) == 0);
}

/* Writes a piece after a closed gate, and then opens that gate. */
static void write_gated(off_t at, const void *octets, size_t size)
{
    write_through(at + 1, octets, size);
    write_through(at, "\1", 1);
}

/* Appends the record whose body ends here in the piece. */
static void append(uint8_t *end)
{
    size_t size = end - piece - 4;
    put4(piece, size);
    *end = 0;
    write_gated(gate, piece, 4 + size + 1);
    gate += 5 + size;
}

/* The folder of a path, once the file was made there, is on the device. */
static void sync_folder(const char *path)
{
    char folder[4096];
    const char *slash = strrchr(path, '/');
    size_t size = slash == NULL ? 1 : slash == path ? 1 : slash - path;
    must(size < sizeof folder);
    memcpy(folder, slash == NULL ? "." : path, size);
    folder[size] = 0;
    int opened = open(folder, O_RDONLY | O_CLOEXEC);
    must(opened >= 0 && fsync(opened) == 0 && close(opened) == 0);
}

/* An empty journal on the file at a path, or on none. */
static void start_journal(const char *path)
{
    gate = FIRST;
    file = open(path, O_RDWR | O_CREAT | O_CLOEXEC, 0666);
    must(file >= 0);
    sync_folder(path);
    must(ftruncate(file, 0) == 0);
    write_through(0, "", 1);
    write_gated(0, "GDOIJRNL", sizeof "GDOIJRNL");
}

static void start_group(unsigned depth)
{
    uint8_t *at = piece + 4;
    memset(&tree, 0, sizeof tree);
    tree.depth = depth;
    draw(tree.spi);
    at = put(at, (uint8_t[]){0, 1, depth}, 3);
    at = put(at, tree.spi, SPI);
    at = put4(at, UINT32_MAX);
    *at++ = sizeof group_name - 1;
    at = put(at, group_name, sizeof group_name - 1);
    append(at);
}

static int is_same(const struct name *a, const struct name *b)
{
    return a->size == b->size && memcmp(a->octets, b->octets, a->size) == 0;
}

/* The place of the table where a member stands, or where it would stand. */
static unsigned table_place(const struct name *member)
{
    uint32_t hash = 2166136261u;
    for (int i = 0; i < member->size; i++)
        hash = (hash ^ member->octets[i]) * 16777619u;
    unsigned at = hash % PLACES;
    while (tree.place_of[at] && !is_same(&tree.holder[tree.place_of[at] - 1], member))
        at = (at + 1) % PLACES;
    return at;
}

/* Takes a place of the table out, and closes the gap. */
static void clear_place(unsigned at)
{
    unsigned next = (at + 1) % PLACES;
    tree.place_of[at] = 0;
    while (tree.place_of[next]) {
        uint16_t moved = tree.place_of[next];
        tree.place_of[next] = 0;
        tree.place_of[table_place(&tree.holder[moved - 1])] = moved;
        next = (next + 1) % PLACES;
    }
}

static void count_below(unsigned leaf, int by)
{
    for (unsigned v = leaf + (1u << tree.depth); v; v /= 2)
        tree.position[v].below += by;
    tree.members += by;
}

/* Notes that a leaf changes hands in this epoch. */
static void mark_changed(unsigned leaf)
{
    for (unsigned v = leaf + (1u << tree.depth); v && tree.position[v].changed != tree.epoch; v /= 2)
        tree.position[v].changed = tree.epoch;
}

static void take_out(const struct name *member)
{
    unsigned at = table_place(member), leaf;
    must(tree.place_of[at]);
    leaf = tree.place_of[at] - 1;
    clear_place(at);
    tree.holder[leaf].size = 0;
    count_below(leaf, -1);
    mark_changed(leaf);
    if (leaf < tree.lowest_free)
        tree.lowest_free = leaf;
}

/* Gives a member the lowest free leaf. It is not counted yet. */
static unsigned let_in(const struct name *member)
{
    unsigned at = table_place(member), leaf = tree.lowest_free;
    must(!tree.place_of[at]);
    while (leaf < 1u << tree.depth && tree.holder[leaf].size)
        leaf++;
    must(leaf < 1u << tree.depth);
    tree.lowest_free = leaf + 1;
    tree.place_of[at] = leaf + 1;
    tree.holder[leaf] = *member;
    mark_changed(leaf);
    return leaf;
}

/* The positions that the batch renews, rising; they are made in this epoch. */
static int list_renewed(uint16_t *renewed)
{
    int count = 1;
    renewed[0] = 1;
    for (int i = 0; i < count; i++) {
        unsigned v = renewed[i];
        tree.position[v].made = tree.epoch;
        if (v >= 1u << tree.depth)
            continue;
        for (unsigned child = 2 * v; child <= 2 * v + 1; child++)
            if (tree.position[child].changed == tree.epoch)
                renewed[count++] = child;
    }
    return count;
}

/* What is sealed for those who stayed, while they alone are counted. */
static int list_wraps(const uint16_t *renewed, int count, struct wrap *wrap)
{
    int wraps = 0;
    for (int i = count; i-- > 0;) {
        unsigned v = renewed[i];
        if (v >= 1u << tree.depth)
            continue;
        for (unsigned child = 2 * v; child <= 2 * v + 1; child++)
            if (tree.position[child].below)
                wrap[wraps++] = (struct wrap){child, v};
    }
    return wraps;
}

/* Draws the values of renewed positions with a member, and of the root, and puts them into the record. */
static uint8_t *draw_values(const uint16_t *renewed, int count, uint8_t *at)
{
    uint8_t *number = at;
    unsigned drawn = 0;
    at += 2;
    for (int i = 0; i < count; i++) {
        struct position *position = &tree.position[renewed[i]];
        if (renewed[i] != 1 && !position->below)
            continue;
        draw(position->value.iv);
        draw(position->value.key);
        at = put(put2(at, renewed[i]), &position->value, sizeof position->value);
        drawn++;
    }
    put2(number, drawn);
    return at;
}

static void draw_traffic(struct traffic *traffic)
{
    uint8_t block[16];
    draw(traffic->cipher_key);
    draw(traffic->integrity_key);
    draw(traffic->integrity_key + 16);
    draw(block);
    block[0] |= 0x80;
    memcpy(traffic->spi, block, sizeof traffic->spi);
}

static uint8_t *put_changes(uint8_t *at, const struct change *change, int count)
{
    *at++ = count;
    for (int i = 0; i < count; i++) {
        *at++ = change[i].in;
        *at++ = change[i].member.size;
        at = put(at, change[i].member.octets, change[i].member.size);
    }
    return at;
}

static uint8_t *put_traffic(uint8_t *at, const struct traffic *traffic)
{
    at = put(at, traffic->cipher_key, 16);
    at = put(at, traffic->integrity_key, 32);
    return put(at, traffic->spi, 4);
}

static uint8_t *put_array(uint8_t *at, const struct wrap *wrap)
{
    const struct position *by = &tree.position[wrap->by], *gives = &tree.position[wrap->gives];
    uint8_t iv[16];
    AES_KEY key;
    memset(at, 0, ARRAY - 32);
    put2(at, 2);
    put2(at + 2, ARRAY - 4);
    at[4] = 1;
    put2(at + 5, 1);
    put2(at + 8, wrap->by);
    put4(at + 12, by->made);
    put2(at + 16, wrap->gives);
    at[18] = 3;
    put4(at + 28, gives->made);
    memcpy(iv, by->value.iv, sizeof iv);
    AES_set_encrypt_key(by->value.key, 128, &key);
    AES_cbc_encrypt((const uint8_t *)&gives->value, at + 32, 32, &key, iv, AES_ENCRYPT);
    return at + ARRAY;
}

static uint8_t *put_head(uint8_t *at, unsigned next, unsigned size)
{
    return put2(put2(at, next << 8), size);
}

/* Begins a push, up to the head of its policy. */
static uint8_t *begin_push(uint32_t sequence)
{
    return put4(put_head(push + HEADER, 1, PAYLOAD_HEAD + 4), sequence);
}

/* Signs a header and payloads. */
static void sign(uint8_t *signature, const uint8_t *header, const uint8_t *payloads, size_t size)
{
    uint8_t digest[HASH];
    size_t written;
    must(EVP_DigestInit_ex2(hash, NULL, NULL) && EVP_DigestUpdate(hash, "rekey", 5) && EVP_DigestUpdate(hash, header, HEADER));
    must(EVP_DigestUpdate(hash, payloads, size) && EVP_DigestFinal_ex(hash, digest, NULL));
    must(EVP_MAC_init(mac, (const uint8_t *)hash_key, sizeof hash_key - 1, NULL) && EVP_MAC_update(mac, digest, HASH));
    must(EVP_MAC_final(mac, signature, &written, HASH));
}

static void add_end(const uint8_t *end)
{
    uint64_t number = 0;
    for (int i = -8; i < 0; i++)
        number = number << 8 | end[i];
    tally.sum += number;
}

/* Signs a push whose payloads end here, and seals it under a key. */
static void finish_push(uint8_t *at, const struct value *kek)
{
    uint8_t *payloads = push + HEADER;
    int size = (at - payloads + PAYLOAD_HEAD + HASH + 15) / 16 * 16, written;
    put4(put4(put4(put(push, tree.spi, SPI), HEAD_WORD), 0), HEADER + size);
    sign(put_head(at, 0, PAYLOAD_HEAD + HASH), push, payloads, at - payloads);
    at += PAYLOAD_HEAD + HASH;
    memset(at, 0, payloads + size - at);
    must(EVP_CipherInit_ex2(cipher, NULL, kek->key, kek->iv, 1, NULL));
    must(EVP_CipherUpdate(cipher, payloads, &written, payloads, size) && written == size);
    tally.octets += HEADER + size;
    add_end(payloads + size);
}

static void write_membership(const struct wrap *wrap, int wraps, const struct value *kek)
{
    uint8_t *at = begin_push(tree.sequence - 1);
    unsigned packet = PACKET_HEAD + ARRAY * wraps;
    at = put_head(at, 17, PAYLOAD_HEAD + sizeof sa_head + 3 + sizeof kek_addresses + SPI + sizeof kek_attributes);
    at = put(put(at, sa_head, sizeof sa_head), (uint8_t[]){15, 0, 0}, 3);
    at = put(at, kek_addresses, sizeof kek_addresses);
    at = put(put(at, tree.spi, SPI), kek_attributes, sizeof kek_attributes);
    at = put_head(at, 9, PAYLOAD_HEAD + 4 + packet);
    at = put_head(put4(at, 1 << 16), 3, packet);
    *at++ = SPI;
    at = put(at, tree.spi, SPI);
    for (int i = 0; i < wraps; i++)
        at = put_array(at, wrap + i);
    finish_push(at, kek);
}

static void write_traffic(const struct traffic *traffic)
{
    uint8_t *at = begin_push(tree.sequence);
    unsigned packet = 4 + 1 + 4 + 4 + 16 + 4 + 32;
    at = put_head(at, 17, PAYLOAD_HEAD + sizeof sa_head + 3 + sizeof tek_addresses + 4 + sizeof tek_attributes);
    at = put(put(at, sa_head, sizeof sa_head), (uint8_t[]){16, 0, 0}, 3);
    at = put(at, tek_addresses, sizeof tek_addresses);
    at = put(put(at, traffic->spi, 4), tek_attributes, sizeof tek_attributes);
    at = put_head(at, 9, PAYLOAD_HEAD + 4 + packet);
    at = put_head(put4(at, 1 << 16), 1, packet);
    *at++ = 4;
    at = put(at, traffic->spi, 4);
    at = put(put2(put2(at, 1), 16), traffic->cipher_key, 16);
    at = put(put2(put2(at, 2), 32), traffic->integrity_key, 32);
    finish_push(at, &tree.position[1].value);
}

static void write_reply(struct reply *told, unsigned leaf, const struct traffic *traffic)
{
    told->epoch = tree.epoch;
    told->sequence = tree.sequence;
    memcpy(told->spi, tree.spi, SPI);
    told->traffic = *traffic;
    told->keys = 0;
    for (unsigned v = leaf + (1u << tree.depth); v; v /= 2)
        told->path[told->keys++] = (struct path_key){v, tree.position[v].made, tree.position[v].value};
}

static void tally_reply(const struct reply *told)
{
    tally.keys += told->keys;
    for (int i = 0; i < told->keys; i++)
        add_end(told->path[i].value.key + 16);
}

/* Closes a batch: those who go out leave their leaves before others come in. */
static void close_batch(const struct change *change, int count)
{
    uint16_t renewed[RENEWED], came[CHANGES];
    struct wrap wrap[2 * RENEWED];
    struct traffic traffic;
    struct value old_root = tree.position[1].value;
    int comes = 0;

    tree.epoch++;
    for (int i = 0; i < count; i++)
        if (!change[i].in)
            take_out(&change[i].member);
    for (int i = 0; i < count; i++)
        if (change[i].in)
            came[comes++] = let_in(&change[i].member);
    int stayed = tree.members > 0;
    if (stayed)
        tree.sequence += 2;

    int fresh = list_renewed(renewed);
    int wraps = list_wraps(renewed, fresh, wrap);
    for (int i = 0; i < comes; i++)
        count_below(came[i], 1);

    uint8_t *at = put4(put4(put2(piece + 4, 1 << 8 | 1), tree.epoch), tree.sequence);
    at = draw_values(renewed, fresh, put_changes(at, change, count));
    draw_traffic(&traffic);
    at = put_traffic(at, &traffic);

    if (stayed) {
        write_membership(wrap, wraps, &old_root);
        write_traffic(&traffic);
        tally.wraps += wraps + 1;
    }
    for (int i = 0; i < comes; i++)
        write_reply(reply + i, came[i], &traffic);
    append(at);
    for (int i = 0; i < comes; i++)
        tally_reply(reply + i);
}

/* The work of this name in a tree of so many leaves. */
static struct work work_of(const char *kind, unsigned leaves)
{
    if (strcmp(kind, "large") == 0)
        return (struct work){32, leaves / 32};
    must(strcmp(kind, "small") == 0);
    return (struct work){4, leaves / 4 - 3};
}

static void name_member(struct name *member, unsigned place)
{
    member->size = snprintf((char *)member->octets, sizeof member->octets, "m%u", place);
}

/* The changes of the batch of this number: members come in until the tree is filled, and then others go out and come in, in turn. */
static void make_changes(struct change *change, const struct work *work, unsigned number)
{
    unsigned members = work->changes * work->filling, turns = number - work->filling;
    for (unsigned i = 0; i < work->changes; i++) {
        unsigned place = (number < work->filling ? number : turns / 2) * work->changes + i;
        change[i].in = number < work->filling || turns % 2 == 1;
        if (number >= work->filling && change[i].in)
            place += members;
        else if (!change[i].in && place < members)
            place = place % work->changes * work->filling + place / work->changes;
        name_member(&change[i].member, place);
    }
}

static void print_tally(void)
{
    printf("worked %u %u %u %llu %llu %llu %llu\n", tree.epoch, tree.sequence, tree.members, (unsigned long long)tally.wraps,
           (unsigned long long)tally.octets, (unsigned long long)tally.keys, (unsigned long long)tally.sum);
}

static void do_work(const char *path, unsigned depth, const char *kind, unsigned long count)
{
    struct change change[CHANGES];
    struct work work = work_of(kind, 1u << depth);
    memset(&tally, 0, sizeof tally);
    start_draws(&draws, 0);
    start_journal(path);
    start_group(depth);
    for (unsigned long number = 0; number < count; number++) {
        make_changes(change, &work, number);
        close_batch(change, work.changes);
    }
    must(close(file) == 0);
    print_tally();
}

int main(int words, char **word)
{
    must(words >= 3 && words % 2 == 1);
    unsigned long depth = strtoul(word[2], NULL, 10);
    must(5 <= depth && depth <= DEEPEST);
    start_ciphers();
    for (int i = 3; i + 1 < words; i += 2)
        do_work(word[1], depth, word[i], strtoul(word[i + 1], NULL, 10));
    return 0;
}
