/* The work of `gdoi_console --new DEPTH` in C with openssl's library, for the lines allow, deny, join, leave, batch, deliver, deliver-all, key and show: the
   key server of `core.c`, with rules and with sessions of pulls, and members that register by pulls and read each push as those of `members.c` do. It prints
   the same, a line a call, and leaves the same file. It keeps no history. With `--soak NUMBER` it does the work of a soak, the pulls of a round one after the
   other, and makes no report but the summary. */
#define main core_main
#include "core.c"
#undef main
#include "console_pulls.h"
#include "console_members.h"
#include <stdarg.h>

#define LINE 202
/* how many SAs may be introduced, and the places of the tables that find them */
#define MOST_PEERS 1024
#define PEER_PLACES (4 * MOST_PEERS)
#define RULES 16384
/* the depth of a soak's tree, its names, its rounds, and the joins and leaves of a round */
enum { SOAK_DEPTH = 7, SOAK_NAMES = 80, SOAK_ROUNDS = 40, SOAK_JOINS = 12, SOAK_LEAVES = 5 };
/* the most octets of what is printed in hex */
#define MOST_SHOWN (2 * MOST + 1)

/* What a session awaits. */
enum { NO_SESSION, THIRD, NEXT_BATCH, NOTHING };
/* What the server answers to a datagram. */
enum { REFUSED, SENT_SECOND, QUEUED, SENT_FOURTH };

static struct rule {
    int allows, is_prefix;
    struct name pattern;
} rule[RULES];
static unsigned rules;

/* Who was used, in the order in which that first was, each with its SA and the session of its pull: the datagram that it took last, and what was answered. */
static struct peer {
    struct name name;
    struct pull pull;
    int awaits;
    struct message last, kept;
} peer[MOST_PEERS];
static unsigned peers;
/* as one and the number of a peer, or 0 */
static uint16_t peer_at[PEER_PLACES], peer_with[PEER_PLACES];
static struct draws member_draws;

/* The pushes, by their numbers from 1. */
static struct {
    uint8_t *octets;
    unsigned size;
} *sent;
static unsigned room_for_sent;
static struct change queue[CHANGES];
static int queued;
/* the present traffic key, of zeros before the first */
static struct traffic traffic;
static uint8_t text[MOST_MESSAGE];
/* whether the report is left out */
static int is_quiet;
/* how many answers of the server or of stores were refusals */
static unsigned refused;

void say(const char *format, ...)
{
    va_list arguments;
    if (is_quiet)
        return;
    va_start(arguments, format);
    vprintf(format, arguments);
    va_end(arguments);
}

static void print_name(const struct name *name)
{
    say("%.*s ", name->size, (const char *)name->octets);
}

/* The place of the table where somebody stands, or where he would stand. */
static uint16_t *peer_place(const struct name *name)
{
    uint32_t hash = 2166136261u;
    for (int i = 0; i < name->size; i++)
        hash = (hash ^ name->octets[i]) * 16777619u;
    unsigned at = hash % PEER_PLACES;
    while (peer_at[at] && !is_same(&peer[peer_at[at] - 1].name, name))
        at = (at + 1) % PEER_PLACES;
    return peer_at + at;
}

/* The place of the table where the SA with these cookies stands, or where it would stand. */
static uint16_t *cookies_place(const uint8_t *cookies)
{
    unsigned at = (cookies[0] << 16 | cookies[1] << 8 | cookies[2]) % PEER_PLACES;
    while (peer_with[at] && memcmp(peer[peer_with[at] - 1].pull.phase.cookies, cookies, COOKIES) != 0)
        at = (at + 1) % PEER_PLACES;
    return peer_with + at;
}

/* The number of a peer. Who was not used before gets an SA, which is introduced. */
static unsigned use(const struct name *name)
{
    uint16_t *place = peer_place(name);
    struct phase *phase = &peer[peers].pull.phase;
    if (*place)
        return *place - 1;
    must(peers < MOST_PEERS);
    draw_from(&member_draws, phase->cookies);
    draw_from(&member_draws, phase->skeyid_a);
    draw_from(&member_draws, phase->skeyid_a + 16);
    draw_from(&member_draws, phase->key);
    draw_from(&member_draws, phase->last);
    peer[peers].name = *name;
    add_member(peers, phase);
    *cookies_place(phase->cookies) = peers + 1;
    *place = ++peers;
    return peers - 1;
}

static int is_member(const struct name *name)
{
    return tree.place_of[table_place(name)] != 0;
}

static int is_pending(const struct name *name)
{
    for (int i = 0; i < queued; i++)
        if (is_same(&queue[i].member, name))
            return 1;
    return 0;
}

/* How many there would be if the batch were closed now, those who go out still counted. */
static unsigned held(void)
{
    unsigned held = tree.members;
    for (int i = 0; i < queued; i++)
        held += queue[i].in ? 1 : -1;
    return held;
}

/* Prints a datagram: its size, and its octets in hex. */
static void print_datagram(const uint8_t *octets, unsigned size)
{
    static const char digits[] = "0123456789abcdef";
    static char text[MOST_SHOWN];
    char *at = text;
    if (is_quiet)
        return;
    for (unsigned i = 0; i < size; i++) {
        *at++ = digits[octets[i] >> 4];
        *at++ = digits[octets[i] & 15];
    }
    *at = 0;
    say("%u %s\n", size, text);
}

static void print_message(const char *which, unsigned at)
{
    say("%s ", which);
    print_name(&peer[at].name);
    print_datagram(peer[at].kept.octets, peer[at].kept.size);
}

static void add_rule(int allows, const struct name *pattern)
{
    struct rule *new = rule + rules;
    must(rules < RULES);
    *new = (struct rule){allows, pattern->octets[pattern->size - 1] == '*', *pattern};
    new->pattern.size -= new->is_prefix;
    say("rule %u\n", ++rules);
}

/* Whether somebody may join; if not, the number of the rule that says so is told, and 0 where none matches. */
static int is_allowed(const struct name *name, unsigned *by)
{
    for (*by = 1; *by <= rules; ++*by) {
        const struct rule *it = rule + *by - 1;
        if (it->pattern.size <= name->size && (it->is_prefix || it->pattern.size == name->size)
            && memcmp(it->pattern.octets, name->octets, it->pattern.size) == 0)
            return it->allows;
    }
    *by = 0;
    return 0;
}

/* Prints the first reason against a message of somebody, if there is one: the rules, a change that waits, and of a join that it has no room. */
static int is_refused(const struct name *name, int joins)
{
    unsigned by;
    if (!is_allowed(name, &by)) {
        print_name(name);
        say("refused denied %u\n", by);
    } else if (is_pending(name)) {
        print_name(name);
        say("refused already-pending\n");
    } else if (joins && held() == 1u << tree.depth) {
        print_name(name);
        say("refused tree-full %u\n", held());
    } else if (joins && queued == CHANGES) {
        print_name(name);
        say("refused batch-full %d\n", queued);
    } else
        return 0;
    refused++;
    return 1;
}

/* Both policies, with the SPI of the traffic key, which is zeros before there is one. */
static uint8_t *put_policies(uint8_t *at, const uint8_t *traffic_spi)
{
    at = put(put(at, sa_head, sizeof sa_head), (uint8_t[]){15, 0, 0}, 3);
    *at = 16;
    at = put(at + 1, kek_addresses + 1, sizeof kek_addresses - 1);
    at = put(put(at, tree.spi, SPI), kek_attributes, sizeof kek_attributes);
    at = put(at, tek_addresses, sizeof tek_addresses);
    return put(put(at, traffic_spi, 4), tek_attributes, sizeof tek_attributes);
}

/* The traffic key, and the keys of a path. */
static uint8_t *put_registration(uint8_t *at, const struct reply *told)
{
    at = put_head(put4(at, 2 << 16), 1, 65);
    *at++ = 4;
    at = put(at, told->traffic.spi, 4);
    at = put(put2(put2(at, 1), 16), told->traffic.cipher_key, 16);
    at = put(put2(put2(at, 2), 32), told->traffic.integrity_key, 32);
    at = put_head(at, 3, PACKET_HEAD + 8 + 48 * told->keys);
    *at++ = SPI;
    at = put(at, told->spi, SPI);
    at = put2(put2(at, 1), 4 + 48 * told->keys);
    at = put4(at, 1 << 24 | told->keys << 8);
    for (int i = 0; i < told->keys; i++) {
        memset(at, 0, 12);
        put2(at, told->path[i].id);
        at[2] = 3;
        at = put4(at + 12, told->path[i].made);
        at = put(at, &told->path[i].value, sizeof told->path[i].value);
    }
    return at;
}

static void copy_message(struct message *to, const struct message *from)
{
    to->size = from->size;
    memcpy(to->octets, from->octets, from->size);
}

/* The second message, with a nonce of the server, under the IV of the pull. */
static void make_second(struct peer *to, const uint8_t *nonce)
{
    uint8_t *at = put_head(to->kept.octets + HASHED, OF_SA, PAYLOAD_HEAD + NONCE);
    at = put_head(put(at, nonce, NONCE), 0, PAYLOAD_HEAD + sizeof sa_head + 3 + 73 + 51);
    seal_message(&to->kept, &to->pull, OF_NONCE, put_policies(at, traffic.spi), 1);
}

/* The fourth message, with what a member is told, under the IV of the pull. */
static void make_fourth(struct peer *to, const struct reply *told)
{
    uint8_t *at = put4(put_head(to->kept.octets + HASHED, OF_KD, PAYLOAD_HEAD + 4), told->sequence);
    at = put_head(at, 0, 102 + 48 * told->keys);
    seal_message(&to->kept, &to->pull, OF_SEQUENCE, put_registration(at, told), 2);
}

/* A first message is answered by a second one, unless its sender may not join. */
static int serve_first(struct peer *from, const struct message *first)
{
    struct pull pull = from->pull;
    const uint8_t *at = text, *end = text + first->size - PULL_HEADER, *nonce, *id;
    unsigned named = OF_HASH;
    size_t size;
    memcpy(pull.message, first->octets + 20, sizeof pull.message);
    make_first_iv(&pull);
    open_message(text, first, &pull);
    must(next_body(&at, end, &named, OF_HASH, &size) && size == HASH);
    must((nonce = next_body(&at, end, &named, OF_NONCE, &size)) && size == NONCE);
    memcpy(pull.nonces, nonce, NONCE);
    must((id = next_body(&at, end, &named, OF_ID, &size)) && ends_well(text, at, end, named, &pull, 0));
    must(size == 4 + sizeof group_name - 1 && id[0] == 11 && memcmp(id + 4, group_name, sizeof group_name - 1) == 0);
    if (is_refused(&from->name, 0))
        return REFUSED;
    draw(pull.nonces + NONCE);
    take_iv(&pull, first);
    from->pull = pull;
    make_second(from, pull.nonces + NONCE);
    copy_message(&from->last, first);
    from->awaits = THIRD;
    return SENT_SECOND;
}

/* A third message is answered by a fourth one if its sender is a member; else it waits for the next batch. */
static int serve_third(struct peer *from, const struct message *third)
{
    const uint8_t *at = text, *end = text + third->size - PULL_HEADER;
    unsigned named = OF_HASH, leaf = tree.place_of[table_place(&from->name)];
    size_t size;
    open_message(text, third, &from->pull);
    must(next_body(&at, end, &named, OF_HASH, &size) && size == HASH && ends_well(text, at, end, named, &from->pull, 2));
    if (is_refused(&from->name, !leaf))
        return REFUSED;
    take_iv(&from->pull, third);
    copy_message(&from->last, third);
    from->awaits = leaf ? NOTHING : NEXT_BATCH;
    if (leaf) {
        write_reply(reply, leaf - 1, &traffic);
        make_fourth(from, reply);
        return SENT_FOURTH;
    }
    queue[queued++] = (struct change){1, from->name};
    return QUEUED;
}

/* Answers a datagram. What is sent is kept by its session. */
static int serve(const struct message *datagram)
{
    struct peer *from = peer + *cookies_place(datagram->octets) - 1;
    must(from >= peer && has_header(datagram, from->pull.phase.cookies, NULL));
    if (from->awaits == NO_SESSION)
        return serve_first(from, datagram);
    must(datagram->size != from->last.size || memcmp(datagram->octets, from->last.octets, datagram->size) != 0);
    if (memcmp(datagram->octets + 20, from->pull.message, 4) != 0)
        return serve_first(from, datagram);
    must(from->awaits == THIRD);
    return serve_third(from, datagram);
}

/* A member gets the fourth message that its session keeps. */
static void tell(unsigned at)
{
    uint32_t got;
    int answer = take_fourth(at, &peer[at].kept, &got);
    if (answer == IGNORED)
        return;
    print_name(&peer[at].name);
    if (answer == KEPT)
        say("keyed %u\n", root_epoch(at));
    else
        say("older %u %u\n", last_number(at), got);
}

/* A pull of somebody. */
static void join(const struct name *name)
{
    static struct message datagram;
    uint8_t id[16], nonce[NONCE];
    unsigned at = use(name);
    draw_from(&member_draws, id);
    draw_from(&member_draws, nonce);
    id[0] |= 0x80;
    begin_pull(at, id, nonce, &datagram);
    if (serve(&datagram) != SENT_SECOND)
        return;
    print_message("second", at);
    if (!take_second(at, &peer[at].kept, &datagram))
        return;
    switch (serve(&datagram)) {
    case QUEUED:
        print_name(name);
        say("queued\n");
        break;
    case SENT_FOURTH:
        print_message("fourth", at);
        tell(at);
    }
}

static void leave(const struct name *name)
{
    print_name(name);
    if (!is_member(name))
        say("refused not-member\n");
    else if (is_pending(name))
        say("refused already-pending\n");
    else if (queued == CHANGES)
        say("refused batch-full %d\n", queued);
    else {
        queue[queued++] = (struct change){0, *name};
        say("leaving\n");
        return;
    }
    refused++;
}

/* Keeps the push that was just written. */
static void keep_push(uint32_t number)
{
    unsigned size = push[24] << 24 | push[25] << 16 | push[26] << 8 | push[27];
    if (number >= room_for_sent) {
        room_for_sent = 2 * number + 64;
        sent = made(realloc(sent, room_for_sent * sizeof *sent));
    }
    sent[number].size = size;
    sent[number].octets = memcpy(made(malloc(size)), push, size);
}

static void print_push(uint32_t number)
{
    say("push %u ", number);
    print_datagram(sent[number].octets, sent[number].size);
}

static void print_counts(const char *what)
{
    say("%s %u sequence %u members %u\n", what, tree.epoch, tree.sequence, tree.members);
}

static void print_batch(const struct wrap *wrap, int wraps, int stayed)
{
    print_counts("epoch");
    if (!stayed)
        return;
    for (int i = 0; i < wraps; i++)
        say("wrap %u.%u %u.%u\n", wrap[i].by, tree.position[wrap[i].by].made, wrap[i].gives, tree.position[wrap[i].gives].made);
    say("wrap 1.%u traffic.%u\n", tree.epoch, tree.epoch);
    print_push(tree.sequence - 1);
    print_push(tree.sequence);
}

/* Closes the batch: those who go out leave their leaves before others come in. */
static void batch(void)
{
    uint16_t renewed[RENEWED], came[CHANGES];
    struct wrap wrap[2 * RENEWED];
    struct value old_root = tree.position[1].value;
    int comes = 0;

    tree.epoch++;
    for (int i = 0; i < queued; i++)
        if (!queue[i].in)
            take_out(&queue[i].member);
    for (int i = 0; i < queued; i++)
        if (queue[i].in)
            came[comes++] = let_in(&queue[i].member);
    int stayed = tree.members > 0;
    if (stayed)
        tree.sequence += 2;

    int fresh = list_renewed(renewed);
    int wraps = list_wraps(renewed, fresh, wrap);
    for (int i = 0; i < comes; i++)
        count_below(came[i], 1);

    uint8_t *at = put4(put4(put2(piece + 4, 1 << 8 | 1), tree.epoch), tree.sequence);
    at = draw_values(renewed, fresh, put_changes(at, queue, queued));
    draw_traffic(&traffic);
    at = put_traffic(at, &traffic);
    if (stayed) {
        write_membership(wrap, wraps, &old_root);
        keep_push(tree.sequence - 1);
        write_traffic(&traffic);
        keep_push(tree.sequence);
    }
    comes = 0;
    for (int i = 0; i < queued; i++)
        if (queue[i].in) {
            unsigned number = *peer_place(&queue[i].member) - 1;
            write_reply(reply, came[comes], &traffic);
            make_fourth(peer + number, reply);
            peer[number].awaits = NOTHING;
            came[comes++] = number;
        }
    append(at);
    print_batch(wrap, wraps, stayed);
    for (int i = 0; i < comes; i++)
        print_message("fourth", came[i]);
    for (int i = 0; i < comes; i++)
        tell(came[i]);
    queued = 0;
}

static void deliver(const struct name *name, uint32_t number)
{
    unsigned at = *peer_place(name);
    print_name(name);
    say("push %u ", number);
    if (!at || !has_store(at - 1) || number < 1 || number > tree.sequence)
        say("nothing\n");
    else if (!take_push(at - 1, sent[number].octets, sent[number].size))
        refused++;
}

static void deliver_all(void)
{
    for (unsigned at = 0; at < peers; at++) {
        if (!has_store(at) || !is_member(&peer[at].name))
            continue;
        for (uint32_t number = last_number(at) + 1; number <= tree.sequence; number++)
            deliver(&peer[at].name, number);
    }
}

static void key(const struct name *name)
{
    unsigned at = *peer_place(name);
    print_name(name);
    if (at && has_store(at - 1))
        print_key(at - 1);
    else
        say("nothing\n");
}

static void show(void)
{
    print_counts("group epoch");
    for (unsigned leaf = 0; leaf < 1u << tree.depth; leaf++)
        if (tree.holder[leaf].size)
            say("leaf %u %.*s\n", leaf + (1u << tree.depth), tree.holder[leaf].size, (const char *)tree.holder[leaf].octets);
}

static void run_line(char *line)
{
    struct name name = {0};
    const char *word = strtok(line, " \n"), *member = strtok(NULL, " \n"), *number = strtok(NULL, " \n");
    must(word != NULL);
    if (member) {
        must(strlen(member) <= NAME);
        name.size = strlen(member);
        memcpy(name.octets, member, name.size);
        if (strcmp(word, "join") == 0)
            join(&name);
        else if (strcmp(word, "leave") == 0)
            leave(&name);
        else if (strcmp(word, "deliver") == 0) {
            must(number != NULL);
            deliver(&name, strtoul(number, NULL, 10));
        } else if (strcmp(word, "key") == 0)
            key(&name);
        else {
            must(strcmp(word, "allow") == 0 || strcmp(word, "deny") == 0);
            add_rule(word[0] == 'a', &name);
        }
    } else if (strcmp(word, "batch") == 0)
        batch();
    else if (strcmp(word, "deliver-all") == 0)
        deliver_all();
    else {
        must(strcmp(word, "show") == 0);
        show();
    }
}

/* A new group with a tree of this depth. */
static void start_console(unsigned depth)
{
    must(1 <= depth && depth <= DEEPEST);
    must(setvbuf(stdout, NULL, _IOLBF, 1 << 18) == 0);
    start_ciphers();
    start_pulls();
    start_members();
    start_draws(&draws, 0);
    start_draws(&member_draws, 1);
    start_journal("group.journal");
    start_group(depth);
    say("new depth %u\n", depth);
}

/* The number of a name. */
static unsigned drawn_name(uint64_t *state)
{
    *state = *state * UINT64_C(6364136223846793005) + UINT64_C(1442695040888963407);
    return (*state >> 33) % SOAK_NAMES;
}

static void run_round(uint64_t *state)
{
    struct name name;
    unsigned first = drawn_name(state);
    for (unsigned i = 0; i < SOAK_JOINS; i++) {
        name_member(&name, (first + i) % SOAK_NAMES);
        join(&name);
    }
    for (unsigned i = 0; i < SOAK_LEAVES; i++) {
        name_member(&name, drawn_name(state));
        leave(&name);
    }
    batch();
    deliver_all();
}

/* How many members have the traffic key. */
static unsigned agreed(void)
{
    unsigned count = 0;
    for (unsigned at = 0; at < peers; at++)
        count += is_member(&peer[at].name) && has_store(at) && has_traffic_keys(at, traffic.cipher_key, traffic.integrity_key);
    return count;
}

static void run_soak(uint64_t number)
{
    uint64_t state = number;
    is_quiet = 1;
    start_console(SOAK_DEPTH);
    add_rule(1, &(struct name){1, "*"});
    for (int i = 0; i < SOAK_ROUNDS; i++)
        run_round(&state);
    is_quiet = 0;
    say("soak %llu epochs %u sequence %u members %u ", (unsigned long long)number, tree.epoch, tree.sequence, tree.members);
    say("refused %u agreed %u\n", refused, agreed());
}

static void run_script(unsigned depth)
{
    char line[LINE];
    start_console(depth);
    while (fgets(line, sizeof line, stdin))
        run_line(line);
}

int main(int words, char **word)
{
    must(words == 3);
    if (strcmp(word[1], "--soak") == 0)
        run_soak(strtoull(word[2], NULL, 10));
    else {
        must(strcmp(word[1], "--new") == 0);
        run_script(strtoul(word[2], NULL, 10));
    }
    say("end 0\n");
    must(close(file) == 0);
    return 0;
}
