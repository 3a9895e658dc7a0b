#define _GNU_SOURCE
#include "said_line.h"

#include <string.h>

/* ---- reading: of a line that is not JSON nothing sensible is told, and nothing beyond it is read */

static bool is_space(char byte)
{
    return byte == ' ' || byte == '\t' || byte == '\r' || byte == '\n';
}

static void skip_spaces(struct part *it)
{
    while (it->at < it->end && is_space(*it->at))
        it->at++;
}

/* Reads this byte behind white space. */
static bool take(struct part *it, char byte)
{
    skip_spaces(it);
    if (it->at == it->end || *it->at != byte)
        return false;
    it->at++;
    return true;
}

/* Reads a text in quotes, and answers what stands between these. */
static bool take_text(struct part *it, struct part *text)
{
    if (!take(it, '"'))
        return false;
    text->at = it->at;
    while (it->at < it->end && *it->at != '"')
        it->at += *it->at == '\\' && it->end - it->at > 1 ? 2 : 1;
    text->end = it->at;
    return take(it, '"');
}

/* Reads a value, up to the comma or the bracket that follows it. */
static bool take_value(struct part *it, struct part *value)
{
    struct part text;
    size_t depth = 0;
    skip_spaces(it);
    value->at = it->at;
    while (it->at < it->end && (depth || !strchr(",]}", *it->at))) {
        if (*it->at == '"') {
            if (!take_text(it, &text))
                return false;
            continue;
        }
        depth += *it->at == '[' || *it->at == '{';
        depth -= *it->at == ']' || *it->at == '}';
        it->at++;
    }
    value->end = it->at;
    return it->at < it->end;
}

static int digit(char byte)
{
    static const char digits[] = "0123456789abcdef";
    const char *at = byte ? strchr(digits, byte >= 'A' && byte <= 'F' ? byte - 'A' + 'a' : byte) : NULL;
    return at ? (int)(at - digits) : -1;
}

/* The byte that stands at the begin of a text, with or without an escape; 0 where it is none that a command has. */
static char take_byte(struct part *text)
{
    int number = 0;
    if (*text->at != '\\')
        return *text->at++;
    if (text->end - text->at >= 2 && text->at[1] == '/') {
        text->at += 2;
        return '/';
    }
    if (text->end - text->at < 6 || text->at[1] != 'u')
        return 0;
    for (int i = 2; i < 6; i++)
        number = number < 0 || digit(text->at[i]) < 0 ? -1 : number * 16 + digit(text->at[i]);
    text->at += 6;
    return number > 0 && number < 127 ? (char)number : 0;
}

static bool is_text(struct part text, const char *word)
{
    while (text.at < text.end && *word && take_byte(&text) == *word)
        word++;
    return text.at == text.end && !*word;
}

/* The members that a command has. The last one of a name counts. */
struct members {
    struct part op, name, needs, version;
};

static bool read_members(struct part line, struct members *members)
{
    struct part name, value;
    *members = (struct members){.op.at = NULL};
    if (!take(&line, '{'))
        return false;
    do {
        if (!take_text(&line, &name) || !take(&line, ':') || !take_value(&line, &value))
            return false;
        struct part *of = is_text(name, "op") ? &members->op : is_text(name, "name") ? &members->name
            : is_text(name, "needs") ? &members->needs : is_text(name, "version") ? &members->version : &name;
        *of = value;
    } while (take(&line, ','));
    if (!take(&line, '}'))
        return false;
    skip_spaces(&line);
    return line.at == line.end && members->op.at;
}

/* Whether a value is this text. */
static bool is_value(struct part value, const char *word)
{
    struct part text;
    return take_text(&value, &text) && is_text(text, word);
}

bool changes_nothing(struct part line)
{
    struct members said;
    return read_members(line, &said) && (is_value(said.op, "resolve") || is_value(said.op, "check") || is_value(said.op, "list"));
}

/* ---- writing */

/* What is written, and whether it is a command so far: the texts of one that is accepted are of ASCII, without quotes and backslashes. */
struct writing {
    struct bytes *to;
    bool is_command, has_memory;
};

static void put(struct writing *it, const char *bytes, size_t length)
{
    if (it->has_memory && it->to->room - it->to->length < length)
        it->has_memory = make_room(it->to, it->to->length + length + 256);
    if (!it->has_memory || !length)
        return;
    memcpy(it->to->at + it->to->length, bytes, length);
    it->to->length += length;
}

static void put_word(struct writing *it, const char *word)
{
    put(it, word, strlen(word));
}

/* Writes the text that a value is. */
static void put_text(struct writing *it, struct part value)
{
    struct part text;
    it->is_command = it->is_command && value.at && take_text(&value, &text);
    put_word(it, "\"");
    while (it->is_command && text.at < text.end) {
        char byte = take_byte(&text);
        it->is_command = byte >= ' ' && byte < 127 && byte != '"' && byte != '\\';
        put(it, &byte, 1);
    }
    put_word(it, "\"");
}

/* Writes the pairs that a value is an array of. */
static void put_pairs(struct writing *it, struct part value)
{
    struct part first, second;
    bool is_first = true, is_over;
    it->is_command = it->is_command && value.at && take(&value, '[');
    is_over = !it->is_command || take(&value, ']');
    put_word(it, "[");
    while (!is_over) {
        it->is_command = take(&value, '[') && take_value(&value, &first) && take(&value, ',') && take_value(&value, &second) && take(&value, ']');
        put_word(it, is_first ? "[" : ",[");
        if (it->is_command) {
            put_text(it, first);
            put_word(it, ",");
            put_text(it, second);
        }
        put_word(it, "]");
        is_first = false;
        is_over = !it->is_command || !take(&value, ',');
    }
    put_word(it, "]");
}

bool put_journal_line(struct part line, struct bytes *to)
{
    struct members said;
    struct writing it = {.to = to, .is_command = read_members(line, &said), .has_memory = true};
    to->length = 0;
    if (!it.is_command)
        return true;
    const char *op = is_value(said.op, "publish") ? "publish" : is_value(said.op, "yank") ? "yank" : is_value(said.op, "unyank") ? "unyank" : NULL;
    if (!op)
        return true;
    put_word(&it, "{\"name\":");
    put_text(&it, said.name);
    if (!strcmp(op, "publish")) {
        put_word(&it, ",\"needs\":");
        put_pairs(&it, said.needs);
    }
    put_word(&it, ",\"op\":\"");
    put_word(&it, op);
    put_word(&it, "\",\"version\":");
    put_text(&it, said.version);
    put_word(&it, "}");
    if (!it.is_command)
        to->length = 0;
    return it.has_memory;
}
