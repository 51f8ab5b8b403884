/* The members of `console.c`: each registers by a pull, and its store reads pushes as those of `members.c` do. */
#define main members_main
#include "members.c"
#undef main
#include "console_pulls.h"
#include "console_members.h"

enum { NO_PULL, SECOND, FOURTH };

static struct member {
    struct pull pull;
    int awaits, has_store;
    uint8_t spi[SPI];
    struct store store;
} *member;
static unsigned room_for;
static uint8_t text[MOST_MESSAGE];

void start_members(void)
{
    start_ciphers();
}

void add_member(unsigned at, const struct phase *phase)
{
    if (at >= room_for) {
        room_for = at < 64 ? 128 : 2 * at;
        member = made(realloc(member, room_for * sizeof *member));
    }
    member[at].pull.phase = *phase;
    member[at].awaits = NO_PULL;
    member[at].has_store = 0;
}

void begin_pull(unsigned at, const uint8_t *id, const uint8_t *nonce, struct message *first)
{
    static const uint8_t id_payload[] = {0, 0, 0, 15, 11, 0, 0, 0, 'c', 'o', 'n', 's', 'o', 'l', 'e'};
    struct pull *pull = &member[at].pull;
    uint8_t *payloads = first->octets + HASHED;
    memcpy(pull->message, id, sizeof pull->message);
    memcpy(pull->nonces, nonce, NONCE);
    make_first_iv(pull);
    memcpy(payloads, (uint8_t[]){OF_ID, 0, 0, 4 + NONCE}, 4);
    memcpy(payloads + 4, nonce, NONCE);
    memcpy(payloads + 4 + NONCE, id_payload, sizeof id_payload);
    seal_message(first, pull, OF_NONCE, payloads + 4 + NONCE + sizeof id_payload, 0);
    member[at].awaits = SECOND;
}

/* The HASH of a message is its first payload. */
static int begins_with_hash(const uint8_t **next, const uint8_t *end, unsigned *named)
{
    size_t size;
    *named = OF_HASH;
    return next_body(next, end, named, OF_HASH, &size) && size == HASH;
}

/* Both policies: that of the KEK, and that of the TEK. */
static int read_both_policies(struct text body)
{
    const uint8_t *head = take(&body, 12);
    struct text kek, tek;
    unsigned next;
    if (head == NULL || get4(head) != 2 || get4(head + 4) != 0 || get2(head + 8) != SAK || get2(head + 10) != 0)
        return 0;
    if (!section(&body, &next, &kek) || next != SAT || !section(&body, &next, &tek) || next != 0 || body.at != body.end)
        return 0;
    return kek_policy(kek) && tek_policy(tek);
}

int take_second(unsigned at, const struct message *second, struct message *third)
{
    struct member *to = member + at;
    const uint8_t *next = text, *end = text + second->size - PULL_HEADER, *nonce, *policies;
    unsigned named;
    size_t size;
    if (to->awaits != SECOND || !has_header(second, to->pull.phase.cookies, to->pull.message))
        return 0;
    open_message(text, second, &to->pull);
    if (!begins_with_hash(&next, end, &named) || !(nonce = next_body(&next, end, &named, OF_NONCE, &size)) || size != NONCE)
        return 0;
    policies = next_body(&next, end, &named, OF_SA, &size);
    if (policies == NULL || !read_both_policies((struct text){policies, policies + size}) || !ends_well(text, next, end, named, &to->pull, 1))
        return 0;
    memcpy(to->spi, push.kek_spi, SPI);
    memcpy(to->pull.nonces + NONCE, nonce, NONCE);
    take_iv(&to->pull, second);
    seal_message(third, &to->pull, 0, third->octets + HASHED, 2);
    to->awaits = FOURTH;
    return 1;
}

/* The keys of a download array, from a leaf up to the root. */
static int read_path(struct store *told, struct text text)
{
    const uint8_t *head = take(&text, 8), *key;
    if (head == NULL || get2(head) != 1 || head[4] != 1 || head[7] != 0)
        return 0;
    told->keys = get2(head + 5);
    if (told->keys < 2 || told->keys > PATH || (int)get2(head + 2) != 4 + KEY * told->keys)
        return 0;
    for (int i = 0; i < told->keys; i++) {
        if ((key = take(&text, KEY)) == NULL || key[2] != 3 || key[3] != 0 || (i > 0 && get2(key) != told->path[i - 1].id / 2))
            return 0;
        told->path[i].id = get2(key);
        told->path[i].made = get4(key + 12);
        memcpy(told->path[i].iv, key + 16, 16);
        memcpy(told->path[i].key, key + 32, 16);
    }
    return told->path[told->keys - 1].id == 1 && text.at == text.end;
}

/* A traffic key, and the keys of a path for this SPI. */
static int read_registration(struct store *told, struct text text, const uint8_t *spi)
{
    const uint8_t *head = take(&text, 4);
    struct text tek, lkh;
    unsigned kind;
    if (head == NULL || get2(head) != 2 || get2(head + 2) != 0 || !section(&text, &kind, &tek) || kind != TEK)
        return 0;
    if (!section(&text, &kind, &lkh) || kind != LKH || text.at != text.end)
        return 0;
    if ((head = take(&tek, 5)) == NULL || head[0] != 4 || !traffic_keys(&tek))
        return 0;
    memcpy(push.traffic.spi, head + 1, 4);
    told->traffic = push.traffic;
    if ((head = take(&lkh, 1 + SPI)) == NULL || head[0] != SPI || memcmp(head + 1, spi, SPI) != 0)
        return 0;
    memcpy(told->spi, spi, SPI);
    return read_path(told, lkh);
}

int take_fourth(unsigned at, const struct message *fourth, uint32_t *got)
{
    struct member *to = member + at;
    struct store told;
    const uint8_t *next = text, *end = text + fourth->size - PULL_HEADER, *body;
    unsigned named;
    size_t size;
    if (to->awaits != FOURTH || !has_header(fourth, to->pull.phase.cookies, to->pull.message))
        return IGNORED;
    open_message(text, fourth, &to->pull);
    if (!begins_with_hash(&next, end, &named) || !(body = next_body(&next, end, &named, OF_SEQUENCE, &size)) || size != 4)
        return IGNORED;
    told.sequence = *got = get4(body);
    body = next_body(&next, end, &named, OF_KD, &size);
    if (body == NULL || !read_registration(&told, (struct text){body, body + size}, to->spi) || !ends_well(text, next, end, named, &to->pull, 2))
        return IGNORED;
    to->awaits = NO_PULL;
    told.traffic_epoch = told.path[told.keys - 1].made;
    if (to->has_store && (told.sequence < to->store.sequence || (told.sequence == to->store.sequence && told.traffic_epoch < root_epoch(at))))
        return OLDER;
    to->store = told;
    to->has_store = 1;
    return KEPT;
}

int has_store(unsigned at)
{
    return member[at].has_store;
}

uint32_t root_epoch(unsigned at)
{
    const struct store *store = &member[at].store;
    return store->path[store->keys - 1].made;
}

uint32_t last_number(unsigned at)
{
    return member[at].store.sequence;
}

int take_push(unsigned at, const uint8_t *datagram, size_t size)
{
    struct store *store = &member[at].store;
    uint32_t last = store->sequence;
    switch (accept(store, datagram, size)) {
    case ROOT:
        say("taken root %u\n", store->path[store->keys - 1].made);
        return 1;
    case TRAFFIC:
        say("taken traffic %u\n", store->traffic_epoch);
        return 1;
    case OTHER_SPI:
        say("refused other-spi\n");
        break;
    case MALFORMED:
        say("refused malformed\n");
        break;
    case BAD_SIGNATURE:
        say("refused bad-signature\n");
        break;
    case STALE:
        say("refused stale %u %u\n", last, push.number);
        break;
    default:
        say("refused no-path %u\n", store->path[0].id);
    }
    return 0;
}

int has_traffic_keys(unsigned at, const uint8_t *cipher_key, const uint8_t *integrity_key)
{
    const struct traffic *traffic = &member[at].store.traffic;
    return memcmp(traffic->cipher_key, cipher_key, 16) == 0 && memcmp(traffic->integrity_key, integrity_key, 32) == 0;
}

void print_key(unsigned at)
{
    const struct store *store = &member[at].store;
    uint8_t print[HASH];
    must(EVP_DigestInit_ex2(hash, NULL, NULL) && EVP_DigestUpdate(hash, store->traffic.cipher_key, 16));
    must(EVP_DigestUpdate(hash, store->traffic.integrity_key, 32) && EVP_DigestFinal_ex(hash, print, NULL));
    say("key %u sequence %u ", store->traffic_epoch, store->sequence);
    for (int i = 0; i < 8; i++)
        say("%02x", print[i]);
    say("\n");
}
