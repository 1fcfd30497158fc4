/* The beacon node and the signing service of `year.sh`: what they answer, and what they keep.
 *
 * Key n, from 0 on and below LIMIT, has the bytes of n + 1, votes in slot n % 32 of each epoch, and has the index n. Of the first KEYS keys
 * one proposes in each slot that PERIOD divides, in turn; where the signing service does not hold it, the next one that it holds.
 * The service's signature holds the key and the signing root, so that whose it is can be read when it is posted. CLOCK is the file of the
 * driven clock (year_clock.c). COUNTS is a file of numbers of 8 bytes, which are kept up to date (`enum count`); after the first
 * 64 it has the epoch of the last vote of each key, which the driver sets first, and then a byte for each key that the service holds. So it
 * has all that must outlast a process. NOTES gets a line for whatever is not as it should be, and for each block; lines of the program that
 * do not end in ` sent` become notes. */
#define _GNU_SOURCE
#include <errno.h>
#include <fcntl.h>
#include <stdarg.h>
#include <stdatomic.h>
#include <stdint.h>
#include <stdio.h>
#include <stdlib.h>
#include <string.h>
#include <sys/mman.h>
#include <sys/syscall.h>
#include <time.h>
#include <unistd.h>

#include "year_answers.h"

#define SLOTS_PER_EPOCH 32
#define SECONDS_PER_SLOT 12
#define GENESIS_ROOT "0x5a5a5a5a5a5a5a5a5a5a5a5a5a5a5a5a5a5a5a5a5a5a5a5a5a5a5a5a5a5a5a5a"
#define ZERO "0x0000000000000000000000000000000000000000000000000000000000000000"
#define FORK "{\"previous_version\":\"0x00000001\",\"current_version\":\"0x00000001\",\"epoch\":\"0\"}"
#define KEY_DIGITS 96
#define MOST_NOTES 1000
/* The room before the body of an answer, for its head. */
#define HEAD 256
/* The status for a request that nobody knows. A key that the signing service does not hold is 404, by Web3Signer's table. */
#define NOT_KNOWN 400

static uint64_t genesis_time, keys, limit, period;
static volatile _Atomic int64_t *ahead;
volatile uint64_t *counts;
static int64_t *last_epochs;
static uint8_t *is_held;
static char (*key_texts)[KEY_DIGITS + 1];
static char **row_fronts;
static const char *kind;
static int notes_file;
static struct text answer;
static uint64_t turn_slot = UINT64_MAX;
static int64_t turn_begun;
static uint64_t line_notes, other_notes;

void stop(const char *what) {
    char why[512];
    int length = snprintf(why, sizeof why, "%s: %s: %s\n", kind ? kind : "year_answers", what, strerror(errno));
    length = length < (int)sizeof why ? length : (int)sizeof why - 1;
    _exit(syscall(SYS_write, 2, why, length) == length ? 126 : 125);
}

/* The system is asked by its own call, since in the program's process the C library's function gives the driven clock. */
int64_t nanoseconds(int clock) {
    struct timespec now;
    syscall(SYS_clock_gettime, clock, &now);
    return now.tv_sec * 1000000000LL + now.tv_nsec;
}

/* ---- texts */

void make_room(struct text *text, size_t more) {
    if (text->length + more <= text->room) {
        return;
    }
    size_t room = text->room ? text->room : 4096;
    while (room < text->length + more) {
        room *= 2;
    }
    char *bytes = realloc(text->bytes, room);
    if (bytes == NULL) {
        stop("memory");
    }
    text->bytes = bytes;
    text->room = room;
}

void put(struct text *text, const char *bytes, size_t length) {
    make_room(text, length);
    memcpy(text->bytes + text->length, bytes, length);
    text->length += length;
}

static void put_text(struct text *text, const char *it) {
    put(text, it, strlen(it));
}

static void put_number(struct text *text, uint64_t number) {
    char digits[20];
    size_t at = sizeof digits;
    do {
        digits[--at] = '0' + number % 10;
        number /= 10;
    } while (number);
    put(text, digits + at, sizeof digits - at);
}

__attribute__((format(printf, 2, 3))) static void put_format(struct text *text, const char *format, ...) {
    char some[2048];
    va_list words;
    va_start(words, format);
    int length = vsnprintf(some, sizeof some, format, words);
    va_end(words);
    if (length < 0 || (size_t)length >= sizeof some) {
        errno = EOVERFLOW;
        stop("a text");
    }
    put(text, some, length);
}

/* A line for the driver, whole in one call. */
__attribute__((format(printf, 1, 2))) static void note(const char *format, ...) {
    char line[1024];
    va_list words;
    va_start(words, format);
    int length = vsnprintf(line, sizeof line - 1, format, words);
    va_end(words);
    if ((size_t)length > sizeof line - 2) {
        length = sizeof line - 2;
    }
    line[length++] = '\n';
    if (syscall(SYS_write, notes_file, line, length) != length) {
        stop("the file of notes");
    }
}

/* A line of a kind that may come endlessly: the first thousand. */
#define note_some(...)                    \
    do {                                  \
        if (other_notes++ < MOST_NOTES) { \
            note(__VA_ARGS__);            \
        }                                 \
    } while (0)

/* ---- reading requests */

/* What stands after a mark from this place on, or nothing. */
static const char *after(const char *from, const char *end, const char *mark) {
    size_t length = strlen(mark);
    const char *found = memmem(from, end - from, mark, length);
    return found ? found + length : NULL;
}

/* Where the text begins that a member of this name, in quotes, has. */
static const char *text_of(const char *from, const char *end, const char *name) {
    const char *at = after(from, end, name);
    while (at && at < end && (*at == ' ' || *at == ':')) {
        at++;
    }
    return at && at < end && *at == '"' ? at + 1 : NULL;
}

/* The digits of a key or a root after `0x`. */
static const char *hex_of(const char *from, const char *end, const char *name) {
    const char *at = text_of(from, end, name);
    return at && end - at > 2 && at[0] == '0' && at[1] == 'x' ? at + 2 : NULL;
}

/* The number whose digits stand here. */
static uint64_t number_at(const char *from, const char *end) {
    uint64_t number = 0;
    while (from < end && '0' <= *from && *from <= '9') {
        number = number * 10 + (*from++ - '0');
    }
    return number;
}

static int digit_of(char it) {
    return '0' <= it && it <= '9' ? it - '0' : 'a' <= it && it <= 'f' ? it - 'a' + 10 : 'A' <= it && it <= 'F' ? it - 'A' + 10 : -1;
}

/* The number of the key whose hex digits stand here, or `limit` where there is none. */
static uint64_t key_at(const char *from, const char *end) {
    uint64_t number = 0;
    if (from == NULL || end - from < KEY_DIGITS) {
        return limit;
    }
    for (int i = 0; i < KEY_DIGITS; i++) {
        int digit = digit_of(from[i]);
        if (digit < 0 || (i < KEY_DIGITS - 16 && digit != 0)) {
            return limit;
        }
        number = number << 4 | digit;
    }
    return number == 0 || number > limit ? limit : number - 1;
}

int is_whole(const struct text *request, const char **body, const char **end) {
    const char *from = request->bytes, *all = from + request->length;
    const char *head = after(from, all, "\r\n\r\n");
    if (head == NULL) {
        return 0;
    }
    uint64_t length = 0;
    for (const char *line = from; (line = after(line, head, "\r\n")) != NULL && line < head;) {
        if (strncasecmp(line, "content-length:", 15) == 0) {
            for (line += 15; *line == ' '; line++) {
            }
            length = number_at(line, head);
        }
    }
    *body = head;
    *end = head + length;
    return (uint64_t)(all - head) >= length;
}

/* ---- what comes in: votes and blocks */

static int is_over(uint64_t slot) {
    int64_t now = nanoseconds(CLOCK_REALTIME) + atomic_load(ahead);
    return (uint64_t)(now / 1000000000) >= genesis_time + (slot + 1) * SECONDS_PER_SLOT;
}

static void take_vote(uint64_t key, uint64_t slot) {
    if (key >= limit || slot % SLOTS_PER_EPOCH != key % SLOTS_PER_EPOCH) {
        counts[VOTES_WRONG]++;
        note_some("wrong %lu %lu", key, slot);
        return;
    }
    if (slot == turn_slot) {
        uint64_t took = nanoseconds(CLOCK_MONOTONIC) - turn_begun;
        if (took > counts[TURN]) {
            counts[TURN] = took;
        }
    }
    int64_t epoch = slot / SLOTS_PER_EPOCH, last = last_epochs[key];
    if (epoch <= last) {
        counts[VOTES_AGAIN]++;
        return;
    }
    if (is_over(slot)) {
        counts[VOTES_LATE]++;
        note_some("late %lu %lu", key, slot);
    }
    if (epoch > last + 1) {
        counts[GAPS] += epoch - last - 1;
        note("gap %lu %ld %ld", key, last + 1, epoch - 1);
    }
    last_epochs[key] = epoch;
    counts[VOTES]++;
}

/* Each vote of a body has one slot and one signature. */
static void take_votes(const char *body, const char *end) {
    const char *slot = body, *signature = body;
    int taken = 0;
    while ((slot = text_of(slot, end, "\"slot\"")) && (signature = hex_of(signature, end, "\"signature\""))) {
        take_vote(key_at(signature, end), number_at(slot, end));
        taken++;
    }
    if (!taken) {
        take_vote(limit, 0);
    }
}

static void take_block(const char *body, const char *end) {
    const char *at = text_of(body, end, "\"slot\"");
    uint64_t slot = at ? number_at(at, end) : 0, key = key_at(hex_of(body, end, "\"signature\""), end);
    if (slot + 1 == counts[NEXT_BLOCK]) {
        counts[BLOCKS_AGAIN]++;
        return;
    }
    counts[NEXT_BLOCK] = slot + 1;
    counts[BLOCKS]++;
    note("block %lu %lu", slot, key);
    if (is_over(slot)) {
        counts[BLOCKS_LATE]++;
        note_some("late block %lu", slot);
    }
}

/* ---- the beacon node */

static void put_data(uint64_t slot) {
    uint64_t epoch = slot / SLOTS_PER_EPOCH;
    put_format(&answer, "{\"data\":{\"slot\":\"%lu\",\"index\":\"0\",\"beacon_block_root\":\"0x%064lx\",\"source\":{\"epoch\":\"%lu\",\"root\":\"" ZERO "\"},"
               "\"target\":{\"epoch\":\"%lu\",\"root\":\"" ZERO "\"}}}", slot, slot, epoch ? epoch - 1 : 0, epoch);
}

static void begin_turn(uint64_t slot) {
    if (slot != turn_slot) {
        turn_slot = slot;
        turn_begun = nanoseconds(CLOCK_MONOTONIC);
    }
}

/* Who proposes in a slot that divides by the period: the key whose turn it is, or the next one that is held. */
static uint64_t proposer_of(uint64_t slot) {
    uint64_t first = slot / period % keys;
    for (uint64_t i = 0; i < limit; i++) {
        if (is_held[(first + i) % limit]) {
            return (first + i) % limit;
        }
    }
    return first;
}

static void put_proposers(uint64_t epoch) {
    put_text(&answer, "{\"dependent_root\":\"" ZERO "\",\"data\":[");
    const char *between = "";
    for (uint64_t slot = epoch * SLOTS_PER_EPOCH; slot < (epoch + 1) * SLOTS_PER_EPOCH; slot++) {
        if (slot % period == 0) {
            uint64_t key = proposer_of(slot);
            put_format(&answer, "%s{\"pubkey\":\"0x%s\",\"validator_index\":\"%lu\",\"slot\":\"%lu\"}", between, key_texts[key], key, slot);
            between = ",";
        }
    }
    put_text(&answer, "]}");
}

static void put_attesters(uint64_t epoch, const char *body, const char *end) {
    put_text(&answer, "{\"dependent_root\":\"" ZERO "\",\"data\":[");
    const char *between = "";
    while (body < end) {
        if (*body < '0' || *body > '9') {
            body++;
            continue;
        }
        uint64_t key = number_at(body, end);
        while (body < end && '0' <= *body && *body <= '9') {
            body++;
        }
        if (key < limit) {
            put_text(&answer, between);
            put_text(&answer, row_fronts[key]);
            put_number(&answer, epoch * SLOTS_PER_EPOCH + key % SLOTS_PER_EPOCH);
            put(&answer, "\"}", 2);
            between = ",";
        }
    }
    put_text(&answer, "]}");
}

static void put_validators(const char *query, const char *end) {
    put_text(&answer, "{\"data\":[");
    const char *between = "";
    while ((query = after(query, end, "id=0x")) != NULL) {
        uint64_t key = key_at(query, end);
        if (key < limit) {
            put_format(&answer, "%s{\"index\":\"%lu\",\"validator\":{\"pubkey\":\"0x%s\"}}", between, key, key_texts[key]);
            between = ",";
        }
    }
    put_text(&answer, "]}");
}

static void put_block(uint64_t slot, const char *query, const char *end) {
    const char *reveal = after(query, end, "randao_reveal=");
    int length = 0;
    while (reveal && reveal + length < end && reveal[length] != '&' && length < 200) {
        length++;
    }
    put_format(&answer, "{\"version\":\"phase0\",\"data\":{\"slot\":\"%lu\",\"proposer_index\":\"%lu\",\"parent_root\":\"0x%064lx\",\"state_root\":\"" ZERO "\",\"body\":{"
               "\"randao_reveal\":\"%.*s\",\"eth1_data\":{\"deposit_root\":\"" ZERO "\",\"deposit_count\":\"0\",\"block_hash\":\"" ZERO "\"},\"graffiti\":\"" ZERO "\","
               "\"proposer_slashings\":[],\"attester_slashings\":[],\"attestations\":[],\"deposits\":[],\"voluntary_exits\":[]}}}",
               slot, proposer_of(slot), slot, length, reveal ? reveal : "");
}

/* A path that begins so: what stands after it. */
static const char *below(const char *target, const char *end, const char *path) {
    size_t length = strlen(path);
    return (size_t)(end - target) >= length && memcmp(target, path, length) == 0 ? target + length : NULL;
}

static int is_path(const char *target, const char *end, const char *path) {
    const char *rest = below(target, end, path);
    return rest == end;
}

/* The status of the answer, whose body is put into `answer`. */
static int tell(const char *target, const char *target_end, const char *body, const char *end) {
    const char *rest;
    if ((rest = below(target, target_end, "/eth/v1/validator/attestation_data?slot="))) {
        uint64_t slot = number_at(rest, target_end);
        begin_turn(slot);
        put_data(slot);
    } else if (is_path(target, target_end, "/eth/v1/beacon/pool/attestations")) {
        take_votes(body, end);
    } else if (is_path(target, target_end, "/eth/v1/node/syncing")) {
        put_text(&answer, "{\"data\":{\"is_syncing\":false,\"head_slot\":\"1\",\"sync_distance\":\"0\"}}");
    } else if (is_path(target, target_end, "/eth/v1/node/version")) {
        put_text(&answer, "{\"data\":{\"version\":\"stand-in/1\"}}");
    } else if ((rest = below(target, target_end, "/eth/v1/validator/duties/proposer/"))) {
        put_proposers(number_at(rest, target_end));
    } else if ((rest = below(target, target_end, "/eth/v1/validator/duties/attester/"))) {
        put_attesters(number_at(rest, target_end), body, end);
    } else if ((rest = below(target, target_end, "/eth/v1/beacon/states/head/validators"))) {
        put_validators(rest, target_end);
    } else if (is_path(target, target_end, "/eth/v1/beacon/states/head/fork")) {
        put_text(&answer, "{\"data\":" FORK "}");
    } else if ((rest = below(target, target_end, "/eth/v2/validator/blocks/"))) {
        put_block(number_at(rest, target_end), rest, target_end);
    } else if (is_path(target, target_end, "/eth/v1/beacon/blocks")) {
        take_block(body, end);
    } else if (is_path(target, target_end, "/eth/v1/beacon/genesis")) {
        counts[STARTS]++;
        turn_slot = UINT64_MAX;
        put_format(&answer, "{\"data\":{\"genesis_time\":\"%lu\",\"genesis_validators_root\":\"" GENESIS_ROOT "\",\"genesis_fork_version\":\"0x00000001\"}}", genesis_time);
    } else {
        return NOT_KNOWN;
    }
    return 200;
}

/* ---- the signing service */

static int sign(uint64_t key, const char *body, const char *end) {
    const char *root = hex_of(body, end, "\"signingRoot\"");
    if (root == NULL || end - root < 64) {
        return NOT_KNOWN;
    }
    if (key >= limit || !is_held[key]) {
        counts[NO_KEY]++;
        return 404;
    }
    put_text(&answer, "{\"signature\":\"0x");
    put(&answer, key_texts[key], KEY_DIGITS);
    put(&answer, root, 64);
    put_text(&answer, "00000000000000000000000000000000\"}");
    return 200;
}

/* Takes keys in, or gives them up: each that stands in the body, by the mark that stands before it. */
static int hold(const char *body, const char *end, const char *mark, int holds, const char *status) {
    put_text(&answer, "{\"data\":[");
    const char *between = "";
    while ((body = after(body, end, mark)) != NULL) {
        while (body < end && strchr(" :\\\"", *body)) {
            body++;
        }
        if (end - body > 2 && body[0] == '0' && body[1] == 'x') {
            body += 2;
        }
        uint64_t key = key_at(body, end);
        if (key >= limit) {
            continue;
        }
        is_held[key] = holds;
        put_format(&answer, "%s{\"status\":\"%s\",\"message\":\"\"}", between, status);
        between = ",";
    }
    put_text(&answer, "],\"slashing_protection\":\"\"}");
    return 200;
}

static int serve(const char *method, const char *target, const char *target_end, const char *body, const char *end) {
    const char *rest;
    if ((rest = below(target, target_end, "/api/v1/eth2/sign/0x"))) {
        return sign(key_at(rest, target_end), body, end);
    }
    if (is_path(target, target_end, "/eth/v1/keystores")) {
        /* A keystore is a text in a text, so its quotes have strokes before them. What stands between the name and the key is skipped. */
        return *method == 'P' ? hold(body, end, "\\\"pubkey\\\"", 1, "imported") : hold(body, end, "\"0x", 0, "deleted");
    }
    return NOT_KNOWN;
}

/* ---- the whole of an answer */

const char *answer_to(int is_signer, const struct text *request, const char *body, const char *end, size_t *length) {
    const char *method = request->bytes, *target = memchr(method, ' ', body - method);
    const char *target_end = target ? memchr(target + 1, ' ', body - target - 1) : NULL;
    if (target_end == NULL) {
        return NULL;
    }
    target++;
    answer.length = HEAD;
    int status = is_signer ? serve(method, target, target_end, body, end) : tell(target, target_end, body, end);
    if (status != 200) {
        put_format(&answer, "{\"code\":%d,\"message\":\"not here\"}", status);
    }
    if (status == NOT_KNOWN) {
        counts[FAULTS]++;
        note_some("unknown %.*s", (int)(target_end - target > 200 ? 200 : target_end - target), target);
    }
    char head[HEAD];
    int front = snprintf(head, sizeof head, "HTTP/1.1 %d %s\r\nContent-Type: application/json\r\nContent-Length: %zu\r\nConnection: close\r\n\r\n",
                         status, status == 200 ? "OK" : "Refused", answer.length - HEAD);
    char *from = answer.bytes + HEAD - front;
    memcpy(from, head, front);
    *length = answer.length - HEAD + front;
    return from;
}

void note_fault(const char *what) {
    counts[FAULTS]++;
    note_some("fault %s", what);
}

/* ---- the program's lines */

static struct text line;

void take_output(const char *some, size_t got) {
    for (const char *from = some, *all = some + got; from < all;) {
        const char *end = memchr(from, '\n', all - from);
        put(&line, from, (end ? end : all) - from);
        if (end == NULL) {
            return;
        }
        if (line.length >= 5 && memcmp(line.bytes + line.length - 5, " sent", 5) == 0) {
            counts[LINES_SENT]++;
        } else {
            counts[LINES_OTHER]++;
            if (line_notes++ < MOST_NOTES) {
                note("line %.*s", (int)(line.length > 300 ? 300 : line.length), line.bytes);
            }
        }
        line.length = 0;
        from = end + 1;
    }
}

/* ---- the beginning */

static void *mapped(const char *path, size_t length) {
    int file = open(path, O_RDWR | O_CLOEXEC);
    void *at = file < 0 ? MAP_FAILED : mmap(NULL, length, PROT_READ | PROT_WRITE, MAP_SHARED, file, 0);
    if (at == MAP_FAILED) {
        stop(path);
    }
    close(file);
    return at;
}

static void *zeros(size_t count, size_t size) {
    void *at = calloc(count, size);
    if (at == NULL) {
        stop("memory");
    }
    return at;
}

static void make_keys(void) {
    key_texts = zeros(limit, sizeof *key_texts);
    row_fronts = zeros(limit, sizeof *row_fronts);
    for (uint64_t key = 0; key < limit; key++) {
        snprintf(key_texts[key], sizeof key_texts[key], "%096lx", key + 1);
        if (asprintf(&row_fronts[key], "{\"pubkey\":\"0x%s\",\"validator_index\":\"%lu\",\"committee_index\":\"0\",\"committee_length\":\"2048\",\"committees_at_slot\":\"1\","
                     "\"validator_committee_index\":\"%lu\",\"slot\":\"", key_texts[key], key, key % 2048) < 0) {
            stop("memory");
        }
    }
}

void begin_answers(char **words) {
    kind = words[7];
    genesis_time = strtoull(words[0], NULL, 10);
    keys = strtoull(words[1], NULL, 10);
    limit = strtoull(words[2], NULL, 10);
    period = strtoull(words[3], NULL, 10);
    if (keys < 1 || limit < keys || period < 1) {
        errno = EINVAL;
        stop("the number of keys, or the period");
    }
    ahead = mapped(words[4], sizeof *ahead);
    counts = mapped(words[5], (ALL_COUNTS + limit) * 8 + limit);
    last_epochs = (int64_t *)counts + ALL_COUNTS;
    is_held = (uint8_t *)(last_epochs + limit);
    notes_file = open(words[6], O_WRONLY | O_CREAT | O_APPEND | O_CLOEXEC, 0666);
    if (notes_file < 0) {
        stop(words[6]);
    }
    make_keys();
    make_room(&answer, 65536);
}
