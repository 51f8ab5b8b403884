#include <stddef.h>
#include <stdint.h>

/* prints a part of the report */
void say(const char *format, ...);
/* what comes of a fourth message */
enum { IGNORED, KEPT, OLDER };

void start_members(void);
/* the member of this number, which is the next one, begins to exist, with this phase 1 SA */
void add_member(unsigned at, const struct phase *phase);
/* begins a pull with this message id and nonce, and writes its first message */
void begin_pull(unsigned at, const uint8_t *id, const uint8_t *nonce, struct message *first);
/* whether the pull takes a second message; then it writes the third one */
int take_second(unsigned at, const struct message *second, struct message *third);
/* what comes of a fourth message, whose keys and number make the store, or make it anew */
int take_fourth(unsigned at, const struct message *fourth, uint32_t *got);
int has_store(unsigned at);
uint32_t root_epoch(unsigned at);
uint32_t last_number(unsigned at);
/* whether a store takes a push; prints what it answers */
int take_push(unsigned at, const uint8_t *datagram, size_t size);
/* whether a store has these keys of the traffic */
int has_traffic_keys(unsigned at, const uint8_t *cipher_key, const uint8_t *integrity_key);
void print_key(unsigned at);
