#include <stddef.h>
#include <stdint.h>

#define COOKIES 16
#define NONCE 16
/* the octets before the payload of a HASH, and those before the payloads that it covers */
#define PULL_HEADER 28
#define HASHED (PULL_HEADER + 36)
/* the most octets of a message with a path of ten keys */
#define MOST_MESSAGE 668
/* the kinds of payloads */
enum { OF_SA = 1, OF_ID = 5, OF_HASH = 8, OF_NONCE = 10, OF_KD = 17, OF_SEQUENCE = 18 };

/* What phase 1 left to both sides. */
struct phase {
    uint8_t cookies[COOKIES], skeyid_a[32], key[16], last[16];
};

/* What both sides know of a pull: its message id, the nonces of member and server, and the IV of its next message. */
struct pull {
    struct phase phase;
    uint8_t message[4], nonces[2 * NONCE], iv[16];
};

struct message {
    size_t size;
    uint8_t octets[MOST_MESSAGE];
};

void start_pulls(void);
/* makes the IV of the first message */
void make_first_iv(struct pull *pull);
/* seals the message whose payloads after the HASH are in their place up to here, the first of this kind; its HASH has these nonces */
void seal_message(struct message *message, struct pull *pull, unsigned kind, const uint8_t *end, int nonces);
/* whether it has the header of a pull's message under these cookies, and with this id if there is one */
int has_header(const struct message *message, const uint8_t *cookies, const uint8_t *id);
/* opens the payloads of a message */
void open_message(uint8_t *text, const struct message *message, const struct pull *pull);
/* the body of the next payload, which has to be of this kind, and NULL for any other; `named` is the kind that was named before it */
const uint8_t *next_body(const uint8_t **at, const uint8_t *end, unsigned *named, unsigned kind, size_t *size);
/* whether the payloads end here, and the HASH that the text begins with covers those after it */
int ends_well(const uint8_t *text, const uint8_t *at, const uint8_t *end, unsigned named, const struct pull *pull, int nonces);
/* the IV of the message after this one */
void take_iv(struct pull *pull, const struct message *message);
