#include "meant.h"

#include <stdlib.h>
#include <string.h>

/* How many bytes a requirement may have. */
#define MOST_REQUIREMENT_BYTES 256
#define OPERATORS "=<>~^"

/* Operators of others, the longest first. */
static const char *const same[][2] = {{"===", "="}, {"==", "="}, {"=>", ">="}, {"=<", "<="}, {"<<", "<"}, {">>", ">"},
                                      {"^=", "^"}, {"~=", "~>"}, {"\xe2\x89\xa5", ">="}, {"\xe2\x89\xa4", "<="}, {"~>", "~>"}};
static const char *const anything[] = {"", "latest", "any", "all", "newest"};

static size_t length_of(struct rest text)
{
    return (size_t)(text.end - text.at);
}

static int is_of(char byte, const char *bytes)
{
    return byte && strchr(bytes, byte);
}

static int is_digit(char byte)
{
    return byte >= '0' && byte <= '9';
}

static char small(char byte)
{
    return byte >= 'A' && byte <= 'Z' ? (char)(byte - 'A' + 'a') : byte;
}

static int is_letter(char byte)
{
    return small(byte) >= 'a' && small(byte) <= 'z';
}

static struct rest without(struct rest text, const char *before, const char *behind)
{
    while (text.at < text.end && is_of(*text.at, before))
        text.at++;
    while (text.at < text.end && is_of(text.end[-1], behind))
        text.end--;
    return text;
}

static void put_rest(struct written *to, struct rest text)
{
    while (text.at < text.end)
        put(to, *text.at++);
}

static int is_text(struct rest text, const char *word)
{
    return has(&text, word) && text.at == text.end;
}

/* ---- names */

int meant_name(struct rest text, struct written *to)
{
    int is_apart = 0;
    for (const char *at = text.at; at < text.end; at++)
        if (is_of(*at, "=<>~^!") || (*at == '@' && at > text.at) || *at & 0x80)
            return 0;
    for (; text.at < text.end; text.at++)
        if (!is_letter(*text.at) && !is_digit(*text.at) && !is_of(*text.at, "-_")) {
            is_apart = to->length > 0;
        } else if (to->length || *text.at != '-') {
            if (is_apart)
                put(to, '-');
            is_apart = 0;
            put(to, small(*text.at));
        }
    while (to->length && to->length < to->size && to->room[to->length - 1] == '-')
        to->length--;
    return 1;
}

/* ---- what versions and comparators have in common */

/* Up to three numbers without zeros before them, or wildcards, a pre-release and build metadata, which may be missing a sign. */
struct loose {
    struct rest numbers[3], pre, build;
    int count, has_pre, has_build;
};

static const char wild[] = "*";

/* A number or a wildcard, which the rest begins behind then. */
static int has_part(struct rest *rest, int may_be_wild, struct rest *part)
{
    *part = (struct rest){rest->at, rest->at};
    if (may_be_wild && rest->at < rest->end && is_of(*rest->at, "*xX")) {
        *part = (struct rest){wild, wild + 1};
        rest->at++;
        return 1;
    }
    while (rest->at < rest->end && is_digit(*rest->at))
        rest->at++;
    part->end = rest->at;
    int is_number = part->at < part->end;
    while (part->end - part->at > 1 && *part->at == '0')
        part->at++;
    return is_number;
}

static int is_named(struct rest text)
{
    return text.at < text.end && (is_letter(*text.at) || (*text.at == '-' && length_of(text) > 1));
}

static int reads(struct rest text, struct loose *out)
{
    const char *plus = memchr(text.at, '+', length_of(text));
    *out = (struct loose){.count = 1, .has_build = plus != NULL};
    if (plus) {
        out->build = (struct rest){plus + 1, text.end};
        text.end = plus;
    }
    if (!has_part(&text, 0, &out->numbers[0]))
        return 0;
    for (struct rest next = text; out->count < 3 && has(&next, ".") && has_part(&next, 1, &out->numbers[out->count]); text = next)
        out->count++;
    struct rest behind = {text.at + (text.at < text.end && is_of(*text.at, "-._")), text.end};
    out->pre = is_named(behind) ? behind : text;
    out->has_pre = text.at < text.end;
    if (out->has_pre && !is_named(out->pre))
        return 0;
    for (const char *at = out->pre.at; at < out->pre.end; at++)
        if (!is_letter(*at) && !is_digit(*at) && !is_of(*at, "-."))
            return 0;
    out->pre = without(out->pre, "-", "");
    return 1;
}

static void put_numbers(struct written *to, const struct loose *of, int count)
{
    static const char zero[] = "0";
    for (int place = 0; place < count; place++) {
        if (place)
            put(to, '.');
        put_rest(to, place < of->count ? of->numbers[place] : (struct rest){zero, zero + 1});
    }
}

/* ---- versions */

/* Identifiers that dots part, without zeros before numbers. */
static void put_identifiers(struct written *to, struct rest text)
{
    while (text.at < text.end) {
        struct rest identifier = {text.at, text.at}, number;
        while (identifier.end < text.end && *identifier.end != '.')
            identifier.end++;
        struct rest read = identifier;
        put_rest(to, has_part(&read, 0, &number) && read.at == identifier.end ? number : identifier);
        text.at = identifier.end;
        if (has(&text, "."))
            put(to, '.');
    }
}

int meant_version(struct rest text, struct written *to)
{
    struct loose read;
    if (!reads(without(text, " =^~vV", " "), &read))
        return 0;
    put_numbers(to, &read, 3);
    if (read.has_pre)
        put(to, '-');
    put_identifiers(to, read.pre);
    if (read.has_build)
        put(to, '+');
    put_rest(to, read.build);
    return 1;
}

/* ---- requirements */

/* Ruby's `~>`: the last number may rise, those before it may not. */
static void put_pessimistic(struct written *to, const struct loose *read)
{
    int is_zero = read->count < 3 && is_text(read->numbers[0], "0");
    put_words(to, read->count == 3 ? "~" : is_zero ? ">=" : "^");
    put_numbers(to, read, read->count);
    if (read->has_pre)
        put(to, '-');
    put_rest(to, read->pre);
    put_words(to, is_zero ? ", <1" : "");
}

/* One comparator in Cargo's words. */
static int put_one(struct written *to, struct rest part)
{
    struct rest sign = {part.at, part.at};
    struct loose read;
    for (size_t place = 0; place < sizeof same / sizeof *same && sign.at == sign.end; place++)
        if (has(&part, same[place][0]))
            sign = (struct rest){same[place][1], same[place][1] + strlen(same[place][1])};
    if (sign.at == sign.end)
        sign.end = part.at = without(part, OPERATORS, "").at;
    if (!reads(without(without(part, " ", ""), "vV", ""), &read))
        return 0;
    for (int place = 0; place < read.count; place++)
        if (read.numbers[place].at == wild)
            read.count = place + 1;
    if (is_text(sign, "~>")) {
        put_pessimistic(to, &read);
        return 1;
    }
    put_rest(to, sign);
    put_numbers(to, &read, read.has_pre ? 3 : read.count);
    if (read.has_pre)
        put(to, '-');
    put_rest(to, read.pre);
    return 1;
}

static int ends_with_operator(struct rest part)
{
    return part.at < part.end && (is_of(part.end[-1], OPERATORS) || (length_of(part) > 2 && !memcmp(part.end - 3, "\xe2\x89", 2)));
}

/* Comparators that all must hold, parted in some way. */
static int put_every(struct written *to, struct rest plain)
{
    char room[MOST_REQUIREMENT_BYTES];
    struct rest part = {room, room};
    size_t begun = to->length;
    int is_wild = 0;
    while (plain.at < plain.end || part.at < part.end) {
        plain = without(plain, " ,();&", "");
        struct rest word = {plain.at, plain.at};
        while (word.end < plain.end && !is_of(*word.end, " ,();&"))
            word.end++;
        plain.at = word.end;
        if (is_text(word, "and"))
            continue;
        memcpy(room + length_of(part), word.at, length_of(word));
        part.end += length_of(word);
        /* what stands behind an operator and spaces belongs to it */
        if (ends_with_operator(part) && plain.at < plain.end)
            continue;
        struct rest number = without(part, OPERATORS, "");
        if (length_of(number) == 1 && is_of(*number.at, "*xX")) {
            is_wild = 1;
        } else if (part.at < part.end) {
            put_words(to, to->length > begun ? ", " : "");
            if (!put_one(to, part))
                return 0;
        }
        part.end = part.at;
    }
    put_words(to, is_wild && to->length == begun ? "*" : "");
    return to->length > begun;
}

/* A range by its two bounds, of which one may be missing. */
static int put_range(struct written *to, const char *above, struct rest low, const char *below, struct rest high)
{
    low = without(low, " ", " ");
    high = without(high, " ", " ");
    if (low.at < low.end) {
        put_words(to, above);
        put_rest(to, low);
        put_words(to, high.at < high.end ? ", " : "");
    }
    if (high.at < high.end) {
        put_words(to, below);
        put_rest(to, high);
    }
    put_words(to, low.at == low.end && high.at == high.end ? "*" : "");
    return 1;
}

/* Carets of which each begins where the one before it ends are one range. */
static int put_either(struct written *to, char *plain)
{
    unsigned long before = 0;
    for (char *bar = plain, *next; bar; bar = next) {
        struct loose read;
        next = strstr(bar, "||");
        struct rest bound = without((struct rest){bar, next ? next : bar + strlen(bar)}, " ^", " ");
        if (!reads(bound, &read) || read.has_pre || read.has_build || length_of(read.numbers[0]) > 9)
            return 0;
        unsigned long major = strtoul(read.numbers[0].at, NULL, 10);
        for (int place = 1; place < read.count; place++) {
            if (read.numbers[place].at == wild)
                read.count = place;
            else if (bar > plain && !is_text(read.numbers[place], "0"))
                return 0;
        }
        if (!major || (bar > plain && major != before + 1))
            return 0;
        if (bar == plain) {
            put_words(to, ">=");
            put_numbers(to, &read, read.count);
        }
        before = major;
        next = next ? next + 2 : NULL;
    }
    char beyond[24];
    size_t at = sizeof beyond;
    beyond[--at] = '\0';
    for (unsigned long left = before + 1; left; left /= 10)
        beyond[--at] = (char)('0' + left % 10);
    put_words(to, ", <");
    put_words(to, beyond + at);
    return 1;
}

static int is_anything(const char *plain)
{
    for (size_t place = 0; place < sizeof anything / sizeof *anything; place++) {
        const char *at = plain, *word = anything[place];
        while (*at && small(*at) == *word)
            at++, word++;
        if (!*at && !*word)
            return 1;
    }
    return 0;
}

int meant_requirement(struct rest text, struct written *to)
{
    char room[MOST_REQUIREMENT_BYTES + 1];
    struct written plain = {.room = room, .size = sizeof room};
    for (text = without(text, " ", " "); text.at < text.end; text.at++)
        if (*text.at != ' ' || text.at[1] != ' ')
            put(&plain, *text.at);
    if (plain.length >= sizeof room)
        return 0;
    room[plain.length] = '\0';
    struct rest whole = {room, room + plain.length};
    const char *comma = strchr(room, ','), *dash = strstr(room, " - ");
    if (is_anything(room)) {
        put(to, '*');
        return 1;
    }
    if (strstr(room, "||"))
        return put_either(to, room);
    if (comma && is_of(*whole.at, "[(") && is_of(whole.end[-1], "])"))
        return put_range(to, *whole.at == '[' ? ">=" : ">", (struct rest){whole.at + 1, comma}, whole.end[-1] == ']' ? "<=" : "<", (struct rest){comma + 1, whole.end - 1});
    if (dash)
        return put_range(to, ">=", (struct rest){whole.at, dash}, "<=", (struct rest){dash + 3, whole.end});
    return put_every(to, whole);
}
