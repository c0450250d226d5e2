/* Answers: a clockIdentity is 0x and 16 digits, other numbers are decimal, octets are digits in lower case, `-` where there are none. */
#include "speak.h"

#include <stdio.h>
#include <stdlib.h>
#include <string.h>

static void put(const char *text, size_t length)
{
    fwrite(text, 1, length, stdout);
}

void say(const char *words)
{
    put(words, strlen(words));
}

void show_word(const char *word)
{
    put(" ", 1);
    say(word);
}

static void show_decimal(bool negative, uint64_t number)
{
    char text[sizeof " -18446744073709551615"]; /* room for the longest; filled from its end */
    size_t begin = sizeof text;
    do text[--begin] = (char)('0' + number % 10);
    while ((number /= 10) > 0);
    if (negative) text[--begin] = '-';
    text[--begin] = ' ';
    put(text + begin, sizeof text - begin);
}

void show_number(uint64_t number)
{
    show_decimal(false, number);
}

/* A number that may be negative, of which the word is the two's complement. */
static void show_signed(uint64_t word)
{
    bool negative = (int64_t)word < 0;
    show_decimal(negative, negative ? 0 - word : word);
}

/* Octets as digits, some of them at a time. */
static void put_digits(const uint8_t *octets, size_t length)
{
    static const char digits[] = "0123456789abcdef";
    char text[1024];
    size_t filled = 0;
    for (size_t i = 0; i < length; i++) {
        text[filled++] = digits[octets[i] >> 4];
        text[filled++] = digits[octets[i] & 0xF];
        if (filled == sizeof text || i + 1 == length) {
            put(text, filled);
            filled = 0;
        }
    }
}

void show_octets(const uint8_t *octets, size_t length)
{
    put(" ", 1);
    if (length == 0) put("-", 1);
    put_digits(octets, length);
}

/* The lowest octets of a number, the highest of them first, as messages have them. */
void to_octets(uint64_t number, uint8_t *octets, size_t length)
{
    for (size_t i = length; i-- > 0; number >>= 8) octets[i] = (uint8_t)number;
}

static void show_clock(uint64_t identity)
{
    uint8_t octets[sizeof identity];
    to_octets(identity, octets, sizeof octets);
    put(" 0x", 3);
    put_digits(octets, sizeof octets);
}

/* The numbers of some fields, in their order, each from its word. */
void show_fields(const struct field *fields, const uint64_t *words)
{
    for (; fields->kind != END; fields++) {
        uint64_t word = words[fields->word];
        switch (fields->kind) {
        case CLOCK: show_clock(word); break;
        case I8:
        case I16:
        case I64: show_signed(word); break;
        default: show_number(word);
        }
    }
}

/* A count, then that many candidates, which lie one behind the other. */
void show_candidates(uint64_t count, const uint64_t *candidates)
{
    show_number(count);
    for (uint64_t i = 0; i < count; i++) show_fields(candidate_fields, candidates + i * DZ_CANDIDATE_WORDS);
}

/* NUMBER VALUES */
void show_link_message(const uint64_t *message)
{
    show_number(message[DZ_L_NUMBER]);
    show_fields(link_message_fields(message[DZ_L_NUMBER]), message);
}

/* Says the refusal, if the answer of the library is one; true where it is none, and what the call gave is to be said. */
bool accepted(dz_answer answer)
{
    if (answer == DZ_OK) return true;
    say("refused");
    show_number(dz_number(answer));
    if (dz_place(answer) != 0) show_number(dz_place(answer));
    return false;
}

/* All that is said of a call that gives nothing back. */
void say_ok_or_refused(dz_answer answer)
{
    if (accepted(answer)) say("ok");
}

/* The same of one answer among several. */
void show_ok_or_refused(dz_answer answer)
{
    put(" ", 1);
    say_ok_or_refused(answer);
}

/* Says a refusal, `none` where nothing was found, or `found`; true where what was found is to follow. */
bool found_one(dz_answer answer, const uint64_t *found, const char *none)
{
    if (!accepted(answer)) return false;
    say(found[DZ_FOUND] ? "found" : none);
    return found[DZ_FOUND];
}

void end_answer(void)
{
    put("\n", 1);
}

/* Sends the answers that were kept back so that many go together. */
void send_answers(void)
{
    if (fflush(stdout) == 0 && !ferror(stdout)) return;
    fputs("speak: standard output cannot be written\n", stderr);
    exit(EXIT_FAILURE);
}
