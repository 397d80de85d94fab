/* The automaton of qm_frame in C, to be timed beside it.

   framer FILE TIMES frames the bytes of FILE so many times and prints the count of messages. */
#include <stdbool.h>
#include <stdio.h>
#include <stdlib.h>

enum { MAX_LENGTH = 1048576, MAX_DEPTH = 128 };
enum mode { BETWEEN, INSIDE, SKIPPING, COMPLETE };
enum piece { WHOLE, NUMBER, WORD, STRING, ESCAPE, BROKEN };
enum step { MORE, FRAME, LEX_ERROR, UNBALANCED, TOO_DEEP, TOO_LONG };

struct framer {
    unsigned char *bytes;
    size_t length, depth;
    enum mode mode;
    enum piece last;
    unsigned char quote;
};

static bool is_space(unsigned char x) { return x == ' ' || x == '\t' || x == '\r' || x == '\n'; }
static bool is_opener(unsigned char x) { return x == '{' || x == '['; }
static bool is_closer(unsigned char x) { return x == '}' || x == ']'; }
static bool is_single(unsigned char x) {
    return is_space(x) || is_opener(x) || is_closer(x) || x == ':' || x == ',';
}
static bool is_digit(unsigned char x) { return x >= '0' && x <= '9'; }
static bool begins_number(unsigned char x) { return is_digit(x) || x == '-'; }
static bool in_number(unsigned char x) {
    return begins_number(x) || x == '+' || x == '.' || x == 'e' || x == 'E';
}
static bool is_letter(unsigned char x) { return x >= 'a' && x <= 'z'; }
static bool is_quote(unsigned char x) { return x == '"' || x == '\''; }
static bool is_barred(unsigned char x) { return x < 0x20 || x == 0xFE || x == 0xFF; }
static bool is_reset(unsigned char x) { return is_barred(x) && x != '\t'; }

static enum piece begin(struct framer *f, unsigned char x) {
    if (is_single(x)) return WHOLE;
    if (begins_number(x)) return NUMBER;
    if (is_letter(x)) return WORD;
    if (!is_quote(x)) return BROKEN;
    f->quote = x;
    return STRING;
}

static enum piece next(struct framer *f, unsigned char x) {
    switch (f->last) {
    case WHOLE: return begin(f, x);
    case NUMBER: return in_number(x) ? NUMBER : begin(f, x);
    case WORD: return is_letter(x) ? WORD : begin(f, x);
    case STRING:
        if (is_barred(x)) return BROKEN;
        if (x == f->quote) return WHOLE;
        return x == '\\' ? ESCAPE : STRING;
    case ESCAPE: return is_barred(x) ? BROKEN : STRING;
    default: return BROKEN;
    }
}

static bool hides(enum piece last) { return last == STRING || last == ESCAPE || last == BROKEN; }

static enum step fault(struct framer *f, enum step step, unsigned char x) {
    f->mode = is_reset(x) ? BETWEEN : SKIPPING;
    return step;
}

static enum step push_inside(struct framer *f, unsigned char x) {
    bool counts = !hides(f->last);
    if (f->length == MAX_LENGTH) return fault(f, TOO_LONG, x);
    f->last = next(f, x);
    if (f->last == BROKEN) return fault(f, LEX_ERROR, x);
    if (counts && is_opener(x)) f->depth++;
    if (counts && is_closer(x)) f->depth--;
    if (f->depth > MAX_DEPTH) return fault(f, TOO_DEEP, x);
    f->bytes[f->length++] = x;
    if (f->depth > 0) return MORE;
    f->mode = COMPLETE;
    return FRAME;
}

static enum step push_between(struct framer *f, unsigned char x) {
    if (is_opener(x)) {
        f->bytes[0] = x;
        f->length = f->depth = 1;
        f->last = WHOLE;
        f->mode = INSIDE;
        return MORE;
    }
    f->mode = BETWEEN;
    if (is_space(x)) return MORE;
    return is_closer(x) ? UNBALANCED : fault(f, LEX_ERROR, x);
}

static enum step push(struct framer *f, unsigned char x) {
    if (f->mode == INSIDE) return push_inside(f, x);
    if (f->mode != SKIPPING) return push_between(f, x);
    if (is_reset(x)) f->mode = BETWEEN;
    return MORE;
}

int main(int count, char **words) {
    static unsigned char bytes[2 * MAX_LENGTH];
    struct framer f = {.bytes = malloc(MAX_LENGTH), .mode = BETWEEN};
    if (count == 1) return 0;
    FILE *file = count == 3 ? fopen(words[1], "rb") : NULL;
    if (!f.bytes || !file) return 2;
    size_t length = fread(bytes, 1, sizeof bytes, file);
    unsigned long frames = 0;
    for (long times = atol(words[2]); times > 0; times--)
        for (size_t i = 0; i < length; i++) frames += push(&f, bytes[i]) == FRAME;
    printf("%lu\n", frames);
    return 0;
}
