/* The tokens of a line: words, numbers and octets. */
#include "speak.h"

#include <string.h>

/* The value of a character that is no digit: too much for any base. */
enum { NO_DIGIT = 16 };

/* How far a number of a kind may go from 0, to either side. */
static const struct {
    uint64_t below, above;
} limits[] = {
    [U8] = {0, UINT8_MAX},
    [U16] = {0, UINT16_MAX},
    [U32] = {0, UINT32_MAX},
    [U64] = {0, UINT64_MAX},
    [I8] = {(uint64_t)INT8_MAX + 1, INT8_MAX},
    [I16] = {(uint64_t)INT16_MAX + 1, INT16_MAX},
    [I64] = {(uint64_t)INT64_MAX + 1, INT64_MAX},
    [CLOCK] = {0, UINT64_MAX},
    [SWITCH] = {0, 1},
    [COUNT] = {0, MOST_COUNTED},
    [ROOM] = {0, MOST_ROOM},
};

struct line line_of(struct token text)
{
    return (struct line){.rest = text.text, .end = text.text + text.length};
}

/* The next token: all up to one blank, or to the end of the line. Two blanks have an empty token between them, which nothing is. */
struct token take_token(struct line *line)
{
    const char *text = line->rest;
    const char *blank = memchr(text, ' ', (size_t)(line->end - text));
    if (line->over) line->bad = true;
    line->over = blank == NULL;
    line->rest = blank == NULL ? line->end : blank + 1;
    return (struct token){text, (size_t)((blank == NULL ? line->end : blank) - text)};
}

bool token_is(struct token token, const char *word)
{
    return token.length == strlen(word) && memcmp(token.text, word, token.length) == 0;
}

static unsigned digit_value(char character)
{
    if (character >= '0' && character <= '9') return (unsigned)(character - '0');
    if (character >= 'a' && character <= 'f') return (unsigned)(character - 'a') + 10;
    if (character >= 'A' && character <= 'F') return (unsigned)(character - 'A') + 10;
    return NO_DIGIT;
}

/* The value of one or more digits; false where there is none or something else, or 64 bits cannot hold it. */
static bool value_of_digits(struct token digits, unsigned base, uint64_t *value)
{
    *value = 0;
    for (size_t i = 0; i < digits.length; i++) {
        unsigned digit = digit_value(digits.text[i]);
        if (digit >= base || *value > (UINT64_MAX - digit) / base) return false;
        *value = *value * base + digit;
    }
    return digits.length > 0;
}

/* What stands behind a prefix; false where the token does not begin with it. */
static bool behind(struct token token, const char *prefix, struct token *rest)
{
    size_t length = strlen(prefix);
    if (token.length < length || memcmp(token.text, prefix, length) != 0) return false;
    *rest = (struct token){token.text + length, token.length - length};
    return true;
}

/* A number, decimal with a `-` where it is negative, or hexadecimal; as a word, a negative one as its two's complement. */
uint64_t take_number(struct line *line, enum kind kind)
{
    struct token token = take_token(line), digits = token;
    bool negative = behind(token, "-", &digits);
    unsigned base = behind(token, "0x", &digits) ? 16 : 10;
    uint64_t value;
    if (!value_of_digits(digits, base, &value) || value > (negative ? limits[kind].below : limits[kind].above)) {
        line->bad = true;
        return 0;
    }
    return negative ? 0 - value : value;
}

/* The numbers of some fields, in their order, each into its word. */
void take_fields(struct line *line, const struct field *fields, uint64_t *words)
{
    for (; fields->kind != END; fields++) words[fields->word] = take_number(line, fields->kind);
}

/* Octets as pairs of digits, or `-` for none. */
void take_octets(struct line *line, struct octets *octets)
{
    octets->length = 0;
    take_more_octets(line, octets);
}

/* The same behind those that were taken of this line before; there is room for all that a line can hold. */
void take_more_octets(struct line *line, struct octets *octets)
{
    struct token token = take_token(line);
    if (token_is(token, "-")) return;
    if (token.length == 0 || token.length % 2 != 0) line->bad = true;
    for (size_t i = 0; i < token.length && !line->bad; i += 2) {
        unsigned high = digit_value(token.text[i]), low = digit_value(token.text[i + 1]);
        if (high == NO_DIGIT || low == NO_DIGIT) line->bad = true;
        octets->octet[octets->length++] = (uint8_t)(high << 4 | low);
    }
}

/* Whether all that was taken was there and well formed, and nothing is left. */
bool line_is_whole(const struct line *line)
{
    return line->over && !line->bad;
}
