/* What the peers of `serve.sh aggregates` answer. Nothing of it is written here: the driver makes a table of it (fast_peers.py), whose lines have fields
 * with tabs between them:
 *
 *     delay   NANOSECONDS               how long after its request was read a signature is given
 *     answer  TARGET  STATUS  BODY      an answer that is given at once
 *     sign    TARGET                    a signature of the key that stands for the star, for the root in the request
 *     list    TARGET  FRONT  BACK       an answer with rows, which is given at once
 *     row     MARK  ROW                 a row of the list above, which that has where the mark stands in the request
 *
 * A star in a target stands for any text. The first line that fits is the answer, and where none does the status is 404. */
#define _GNU_SOURCE
#include <errno.h>
#include <stdio.h>
#include <stdlib.h>
#include <string.h>

#include "fast_answers.h"

#define MOST_BYTES (32 * 1024 * 1024)
/* The room before the body of an answer, for its head. */
#define HEAD 256

void stop(const char *what) {
    fprintf(stderr, "fast_peers: %s: %s\n", what, strerror(errno));
    exit(1);
}

/* ---- texts */

void make_room(struct text *text, size_t more) {
    size_t room = text->room ? text->room : 4096;
    while (room < text->length + more) {
        room *= 2;
    }
    if (room == text->room) {
        return;
    }
    text->bytes = realloc(text->bytes, room);
    if (text->bytes == NULL) {
        stop("memory");
    }
    text->room = room;
}

void put(struct text *text, const char *bytes, size_t length) {
    make_room(text, length);
    memcpy(text->bytes + text->length, bytes, length);
    text->length += length;
}

static void put_text(struct text *text, const char *it) {
    put(text, it, strlen(it));
}

/* What stands after a mark from this place on, or nothing. */
static const char *after(const char *from, const char *end, const char *mark) {
    size_t length = strlen(mark);
    const char *found = memmem(from, end - from, mark, length);
    return found ? found + length : NULL;
}

/* What stands from this place on, up to this byte; or nothing. */
static struct part up_to(const char *from, const char *end, char last) {
    const char *found = from ? memchr(from, last, end - from) : NULL;
    return (struct part){found ? from : NULL, found ? found - from : 0};
}

/* ---- requests */

/* Whether a part is there, and is written in the characters of a method or a target. */
static int is_word(struct part part) {
    for (size_t i = 0; i < part.length; i++) {
        if (part.from[i] < '!' || part.from[i] > '~') {
            return 0;
        }
    }
    return part.length > 0;
}

int find_parts(const struct text *read, struct request *request) {
    const char *from = read->bytes, *all = from + read->length, *head = after(from, all, "\r\n\r\n");
    uint64_t length = 0;
    if (head == NULL) {
        return read->length > MOST_BYTES ? -1 : 0;
    }
    for (const char *line = from; (line = after(line, head, "\r\n")) != NULL;) {
        length = strncasecmp(line, "content-length:", 15) == 0 ? strtoull(line + 15, NULL, 10) : length;
    }
    request->method = up_to(from, head, ' ');
    request->target = up_to(request->method.from ? from + request->method.length + 1 : NULL, head, ' ');
    if (!is_word(request->method) || !is_word(request->target) || length > MOST_BYTES) {
        return -1;
    }
    request->body = (struct part){head, length};
    request->all = (struct part){from, head - from + length};
    return (uint64_t)(all - head) >= length;
}

/* ---- the table */

static _Noreturn void stop_at(const char *what) {
    errno = EINVAL;
    stop(what);
}

static void add_line(struct table *table, struct line line) {
    if (line.target == NULL || table->line_count == MOST_LINES) {
        stop_at("a line of the table");
    }
    table->lines[table->line_count++] = line;
}

static void add_row(struct table *table, const char *mark, const char *text) {
    if (text == NULL || table->row_count == MOST_ROWS || table->line_count == 0) {
        stop_at("a row of the table");
    }
    table->rows[table->row_count++] = (struct row){mark, text};
    table->lines[table->line_count - 1].rows++;
}

void take_table(struct table *table, char *bytes) {
    char *rest = bytes, *line;
    free(table->bytes);
    table->bytes = bytes;
    table->delay = table->line_count = table->row_count = 0;
    while ((line = strsep(&rest, "\n")) != NULL && *line) {
        char *kind = strsep(&line, "\t"), *one = strsep(&line, "\t"), *two = strsep(&line, "\t"), *three = strsep(&line, "\t");
        if (strcmp(kind, "delay") == 0 && one) {
            table->delay = strtoll(one, NULL, 10);
        } else if (strcmp(kind, "answer") == 0 && three) {
            add_line(table, (struct line){ANSWER, one, three, "", atoi(two), 0, 0});
        } else if (strcmp(kind, "sign") == 0) {
            add_line(table, (struct line){SIGN, one, "", "", 200, 0, 0});
        } else if (strcmp(kind, "list") == 0 && three) {
            add_line(table, (struct line){LIST, one, two, three, 200, table->row_count, 0});
        } else if (strcmp(kind, "row") == 0) {
            add_row(table, one, two);
        } else {
            stop_at(kind);
        }
    }
}

/* ---- answers */

/* Whether a target is that of a line, whose star may stand for any text. */
static int fits(const char *wanted, struct part target) {
    size_t all = strlen(wanted), front = strcspn(wanted, "*");
    if (front == all) {
        return target.length == all && memcmp(target.from, wanted, all) == 0;
    }
    size_t back = all - front - 1;
    return target.length >= front + back && memcmp(target.from, wanted, front) == 0 &&
           memcmp(target.from + target.length - back, wanted + front + 1, back) == 0;
}

/* Puts a signature, and gives the status: 400 where the request has no root. */
static int sign(struct text *out, const struct line *line, const struct request *request) {
    char digits[SIGNATURE_DIGITS];
    size_t front = strcspn(line->target, "*");
    struct part key = {request->target.from + front, request->target.length - front};
    const char *end = request->body.from + request->body.length, *name = after(request->body.from, end, "\"signingRoot\"");
    struct part before = up_to(name, end, '"'), root = up_to(before.from ? before.from + before.length + 1 : NULL, end, '"');
    if (root.from == NULL || key.length + root.length > MOST_SIGNED) {
        return 400;
    }
    write_signature(key, root, digits);
    put_text(out, "{\"signature\": \"0x");
    put(out, digits, sizeof digits);
    put_text(out, "\"}");
    return 200;
}

static void list(struct text *out, const struct line *line, const struct row *rows, struct part all) {
    const char *between = "";
    put_text(out, line->front);
    for (size_t i = 0; i < line->rows; i++) {
        if (after(all.from, all.from + all.length, rows[i].mark)) {
            put_text(out, between);
            put_text(out, rows[i].text);
            between = ", ";
        }
    }
    put_text(out, line->back);
}

struct answer answer_to(const struct request *request, const struct table *table, struct text *out) {
    const struct line *line = table->lines, *end = table->lines + table->line_count;
    while (line < end && !fits(line->target, request->target)) {
        line++;
    }
    struct answer answer = {line == end ? 404 : line->status, line < end && line->kind == SIGN, 0};
    out->length = 0;
    make_room(out, HEAD);
    out->length = HEAD;
    if (answer.is_signature) {
        answer.status = sign(out, line, request);
    } else if (line < end && line->kind == LIST) {
        list(out, line, table->rows + line->first_row, request->all);
    } else if (line < end) {
        put_text(out, line->front);
    }
    char head[HEAD];
    int length = snprintf(head, sizeof head, "HTTP/1.1 %d %s\r\nContent-Type: application/json\r\nContent-Length: %zu\r\nConnection: close\r\n\r\n",
                          answer.status, answer.status == 200 ? "OK" : "Refused", out->length - HEAD);
    answer.from = HEAD - length;
    memcpy(out->bytes + answer.from, head, length);
    return answer;
}
