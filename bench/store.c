/* The opening of a store by `case_rooms` (`open PATH`) in C: reads the journal of a group once, tests the form of each record, and sees whether each batch is the
   one that is due, with a key tree that is changed in place. It prints the same. */
#include <stdint.h>
#include <stdio.h>
#include <stdlib.h>
#include <string.h>
#include <unistd.h>

#define BEGINNING "\1GDOIJRNL"
/* a gate and a length, and the most octets of a body */
#define HEAD 5
#define MOST 65536
#define DEEPEST 9
#define LEAVES (1 << DEEPEST)
#define CHANGES 32
#define NAME 32
/* places of the table of members: more than twice as many as there are leaves */
#define PLACES (4 * LEAVES)

struct name {
    uint8_t size;
    uint8_t octets[NAME];
};

struct change {
    int in;
    struct name member;
};

/* the value of a position: IV and key */
struct value {
    uint8_t octets[32];
};

/* Each leaf has a holder, or none, whose size is 0. `below` has for each position how many members stand at it or below it. `place_of` finds
   the leaf of a member by its name: the leaf and one, or 0. */
struct tree {
    int depth;
    uint32_t limit, epoch, members;
    uint64_t sequence;
    struct name holder[LEAVES];
    uint16_t below[2 * LEAVES];
    struct value value[2 * LEAVES];
    uint8_t traffic[52];
    uint16_t place_of[PLACES];
    /* no leaf below this one is free */
    unsigned lowest_free;
};

/* what is left of a body */
struct text {
    const uint8_t *at;
    size_t left;
};

static struct tree tree;
static uint8_t body[MOST];
static char buffer[MOST];

static const uint8_t *octets(struct text *text, size_t size)
{
    if (text->left < size)
        return NULL;
    const uint8_t *at = text->at;
    text->at += size;
    text->left -= size;
    return at;
}

static int is_due(struct text *text, uint8_t due)
{
    const uint8_t *octet = octets(text, 1);
    return octet && *octet == due;
}

static uint32_t long_number(const uint8_t *at)
{
    return (uint32_t)at[0] << 24 | (uint32_t)at[1] << 16 | (uint32_t)at[2] << 8 | at[3];
}

static int read_name(struct text *text, struct name *name)
{
    const uint8_t *size = octets(text, 1);
    if (!size || *size < 1 || *size > NAME)
        return 0;
    const uint8_t *at = octets(text, *size);
    if (!at)
        return 0;
    name->size = *size;
    memcpy(name->octets, at, *size);
    return 1;
}

static int is_member_name(const struct name *name)
{
    for (int i = 0; i < name->size; i++) {
        uint8_t c = name->octets[i];
        if (!((c >= 'a' && c <= 'z') || (c >= '0' && c <= '9') || c == '_'))
            return 0;
    }
    return 1;
}

static int is_same(const struct name *a, const struct name *b)
{
    return a->size == b->size && memcmp(a->octets, b->octets, a->size) == 0;
}

/* The head of a group, of which the tree keeps the depth and the limit. */
static int read_head(struct text text)
{
    struct name group;
    if (!is_due(&text, 0) || !is_due(&text, 1))
        return 0;
    const uint8_t *depth = octets(&text, 1);
    if (!depth || *depth < 1 || *depth > DEEPEST)
        return 0;
    const uint8_t *spi = octets(&text, 16);
    const uint8_t *limit = octets(&text, 4);
    if (!spi || !limit || long_number(limit) == 0)
        return 0;
    if (!read_name(&text, &group) || text.left)
        return 0;
    tree.depth = *depth;
    tree.limit = long_number(limit);
    return 1;
}

/* The place of the table where a member stands, or where it would stand. */
static unsigned table_place(const struct name *member)
{
    uint32_t hash = 2166136261u;
    for (int i = 0; i < member->size; i++)
        hash = (hash ^ member->octets[i]) * 16777619u;
    unsigned at = hash % PLACES;
    while (tree.place_of[at] && !is_same(&tree.holder[tree.place_of[at] - 1], member))
        at = (at + 1) % PLACES;
    return at;
}

/* Takes a place of the table out, and closes the gap. */
static void clear_place(unsigned at)
{
    unsigned next = (at + 1) % PLACES;
    tree.place_of[at] = 0;
    while (tree.place_of[next]) {
        uint16_t moved = tree.place_of[next];
        tree.place_of[next] = 0;
        tree.place_of[table_place(&tree.holder[moved - 1])] = moved;
        next = (next + 1) % PLACES;
    }
}

static void count_below(unsigned leaf, int by)
{
    for (unsigned v = leaf + (1u << tree.depth); v; v /= 2)
        tree.below[v] += by;
    tree.members += by;
}

static unsigned take_out(const struct name *member)
{
    unsigned at = table_place(member), leaf = tree.place_of[at] - 1;
    clear_place(at);
    tree.holder[leaf].size = 0;
    count_below(leaf, -1);
    if (leaf < tree.lowest_free)
        tree.lowest_free = leaf;
    return leaf;
}

static unsigned let_in(const struct name *member)
{
    unsigned leaf = tree.lowest_free;
    while (tree.holder[leaf].size)
        leaf++;
    tree.lowest_free = leaf + 1;
    tree.place_of[table_place(member)] = leaf + 1;
    tree.holder[leaf] = *member;
    count_below(leaf, 1);
    return leaf;
}

/* Who goes out is a member and who comes in is none, no name comes twice, and each has a leaf. */
static int fits(const struct change *change, int count)
{
    int in = 0;
    for (int i = 0; i < count; i++) {
        int is_member = tree.place_of[table_place(&change[i].member)] != 0;
        if (is_member == change[i].in)
            return 0;
        in += change[i].in;
        for (int j = 0; j < i; j++)
            if (is_same(&change[i].member, &change[j].member))
                return 0;
    }
    return tree.members + in <= (1u << tree.depth) + (count - in);
}

static int by_number(const void *a, const void *b)
{
    return *(const uint16_t *)a - *(const uint16_t *)b;
}

/* Changes the tree by a batch that fits; the leaves that it changed, by rising leaf. */
static int change_tree(const struct change *change, int count, uint16_t *leaf)
{
    uint32_t stayed = tree.members;
    int changed = 0;
    for (int i = 0; i < count; i++)
        if (!change[i].in) {
            leaf[changed++] = take_out(&change[i].member);
            stayed--;
        }
    for (int i = 0; i < count; i++)
        if (change[i].in)
            leaf[changed++] = let_in(&change[i].member);
    tree.epoch++;
    if (stayed)
        tree.sequence += 2;
    qsort(leaf, changed, sizeof *leaf, by_number);
    return changed;
}

/* Sees that the values are those of the positions from the root down to the changed leaves that have a member, and of the root, by rising
   position, and keeps them. */
static int keep_values(const uint16_t *leaf, int changed, const uint8_t *value, unsigned values)
{
    unsigned seen = 0;
    for (int step = tree.depth; step >= 0; step--) {
        int is_root = step == tree.depth;
        unsigned last = 0;
        for (int i = 0; i < (is_root ? 1 : changed); i++) {
            unsigned v = is_root ? 1 : ((1u << tree.depth) + leaf[i]) >> step;
            if (v == last || (!is_root && !tree.below[v]))
                continue;
            last = v;
            if (seen == values || (value[0] << 8 | value[1]) != (int)v)
                return 0;
            memcpy(tree.value[v].octets, value + 2, 32);
            value += 34;
            seen++;
        }
    }
    return seen == values;
}

/* Reads the record of a batch, and takes it, if it is the one that is due. */
static int take_batch(struct text text)
{
    struct change change[CHANGES];
    uint16_t leaf[CHANGES];
    if (!is_due(&text, 1) || !is_due(&text, 1))
        return 0;
    const uint8_t *epoch = octets(&text, 4);
    const uint8_t *sequence = octets(&text, 4);
    const uint8_t *count = octets(&text, 1);
    if (!epoch || !sequence || !count || *count > CHANGES)
        return 0;
    for (int i = 0; i < *count; i++) {
        const uint8_t *kind = octets(&text, 1);
        if (!kind || *kind > 1 || !read_name(&text, &change[i].member) || !is_member_name(&change[i].member))
            return 0;
        change[i].in = *kind;
    }
    const uint8_t *number = octets(&text, 2);
    if (!number)
        return 0;
    unsigned values = number[0] << 8 | number[1];
    const uint8_t *value = octets(&text, 34 * (size_t)values);
    const uint8_t *traffic = octets(&text, 52);
    if (!value || !traffic || traffic[48] < 0x80 || text.left)
        return 0;
    for (unsigned i = 0; i < values; i++)
        if (!(value[34 * i] | value[34 * i + 1]))
            return 0;
    if (tree.epoch >= tree.limit || long_number(epoch) != tree.epoch + 1 || !fits(change, *count))
        return 0;
    int changed = change_tree(change, *count, leaf);
    if (tree.sequence > tree.limit || long_number(sequence) != tree.sequence)
        return 0;
    memcpy(tree.traffic, traffic, sizeof tree.traffic);
    return keep_values(leaf, changed, value, values);
}

static int no_group(uint64_t at)
{
    printf("open NotAJournal { at: %llu }\n", (unsigned long long)at);
    return 1;
}

int main(int words, char **word)
{
    uint8_t head[HEAD], beginning[sizeof BEGINNING - 1];
    uint64_t at = 0, batches = 0;
    if (words != 2)
        return 1;
    FILE *file = fopen(word[1], "rb");
    if (!file || setvbuf(file, buffer, _IOFBF, sizeof buffer) || fsync(fileno(file)))
        return 1;
    if (fread(beginning, 1, sizeof beginning, file) != sizeof beginning || memcmp(beginning, BEGINNING, sizeof beginning))
        return ferror(file) ? 1 : no_group(0);
    at = sizeof beginning;
    for (int first = 1;; first = 0) {
        size_t read = fread(head, 1, 1, file);
        if (read == 1 && head[0] != 1) {
            if (first)
                return no_group(at);
            break;
        }
        read += fread(head + 1, 1, HEAD - 1, file);
        uint32_t size = read == HEAD ? long_number(head + 1) : MOST + 1;
        if (size > MOST || fread(body, 1, size, file) != size)
            return ferror(file) ? 1 : no_group(at);
        struct text text = {body, size};
        if (!(first ? read_head(text) : take_batch(text)))
            return no_group(at);
        if (!first)
            batches++;
        at += HEAD + size;
    }
    printf("open read %d %llu %u %llu\n", tree.depth, (unsigned long long)batches, tree.epoch, (unsigned long long)tree.sequence);
    return 0;
}
