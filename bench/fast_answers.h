/* What the peers of `serve.sh aggregates` answer (fast_answers.c), for the process that they are (fast_peers.c). */
#include <stddef.h>
#include <stdint.h>

/* How many hex digits a signature has after its `0x`, and how long the texts of a key and a root may be together. */
#define SIGNATURE_DIGITS 192
#define MOST_SIGNED 300

#define MOST_LINES 64
#define MOST_ROWS 4096

/* A text that is built, or was read, in memory that is kept for the next one. */
struct text {
    char *bytes;
    size_t length, room;
};

/* A part of a text. */
struct part {
    const char *from;
    size_t length;
};

struct request {
    struct part all, method, target, body;
};

enum kind { ANSWER, SIGN, LIST };

struct row {
    const char *mark, *text;
};

/* A line of a table, with the first of its rows and how many they are. */
struct line {
    enum kind kind;
    const char *target, *front, *back;
    int status;
    size_t first_row, rows;
};

/* What is answered, and how many nanoseconds after its request was read a signature is given. */
struct table {
    char *bytes;
    int64_t delay;
    struct line lines[MOST_LINES];
    struct row rows[MOST_ROWS];
    size_t line_count, row_count;
};

/* An answer: its status, whether it is a signature, and where its first byte stands. */
struct answer {
    int status, is_signature;
    size_t from;
};

/* Ends the process, with what went wrong and the system's last error. */
_Noreturn void stop(const char *what);

void make_room(struct text *text, size_t more);
void put(struct text *text, const char *bytes, size_t length);

/* Finds the parts of a request, once all of it is at hand. Gives 0 before, and -1 where it is none. */
int find_parts(const struct text *read, struct request *request);

/* Takes a table that ends in a zero byte, in the place of the last one. Its memory is taken over. */
void take_table(struct table *table, char *bytes);

/* Makes the answer to a request in the place of what `out` had. */
struct answer answer_to(const struct request *request, const struct table *table, struct text *out);

/* Writes the digits of the signature that a key gives for a root, both as texts (fast_signature.c). */
void write_signature(struct part key, struct part root, char digits[SIGNATURE_DIGITS]);
