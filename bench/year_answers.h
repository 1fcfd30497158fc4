/* What the beacon node and the signing service of `year.sh` answer (year_answers.c): for the process of their own (year_peers.c), and for
 * the program's (year_inside.c). Calls come one at a time. */
#include <stddef.h>
#include <stdint.h>

enum count {
    REQUESTS,      /* how many requests were answered */
    BUSY,          /* in how many nanoseconds, from the accepted connection or the first byte at hand to the end of the answer */
    VOTES,         /* votes, each once */
    VOTES_AGAIN,   /* votes of an epoch that the key had voted in before */
    VOTES_LATE,    /* votes whose slot was over by the driven clock */
    VOTES_WRONG,   /* votes of no key, or of a slot that is not the key's */
    GAPS,          /* epochs between two votes of a key, without one */
    BLOCKS,        /* blocks, each once */
    BLOCKS_AGAIN,  /* blocks of a slot that had one before */
    BLOCKS_LATE,   /* blocks whose slot was over */
    TURN,          /* nanoseconds of the longest turn since this was set to 0: from the first question for attestation data to the last vote */
    LINES_SENT,    /* lines of the program that end in ` sent` */
    LINES_OTHER,   /* other lines */
    STARTS,        /* questions for the genesis: one for each start of the program */
    NO_KEY,        /* requests to sign with a key that the service does not hold */
    FAULTS,        /* connections that broke, and requests that nobody knows */
    NEXT_BLOCK,    /* the slot after that of the last block */
    ALL_COUNTS = 64
};

/* A text that is built, or was read, in memory that is kept for the next one. */
struct text {
    char *bytes;
    size_t length, room;
};

/* How many words `begin_answers` takes. */
#define ANSWER_WORDS 8

extern volatile uint64_t *counts;

/* Ends the process, with what went wrong and the system's last error. */
_Noreturn void stop(const char *what);

int64_t nanoseconds(int clock);
void make_room(struct text *text, size_t more);
void put(struct text *text, const char *bytes, size_t length);

/* The words are GENESIS_TIME KEYS LIMIT PERIOD CLOCK COUNTS NOTES KIND, of which the last names who calls. */
void begin_answers(char **words);

/* Where the body of a request begins and ends, once all of it is at hand. */
int is_whole(const struct text *request, const char **body, const char **end);

/* The answer to a whole request, which stands until the next call; or nothing where the request is none. */
const char *answer_to(int is_signer, const struct text *request, const char *body, const char *end, size_t *length);

/* Notes a connection that broke. */
void note_fault(const char *what);

/* Takes what the program wrote. */
void take_output(const char *from, size_t length);
