#include "json.h"

#include <stdio.h>
#include <stdlib.h>
#include <string.h>

static const struct json none = {NULL, NULL};

/* Behind the blanks and commas that stand here. */
static const char *past_marks(const char *at, const char *end)
{
    while (at < end && strchr(" \t\r\n,:", *at) != NULL)
        at++;
    return at;
}

/* Behind the text that begins here with its quote. */
static const char *past_text(const char *at, const char *end)
{
    for (at++; at < end && *at != '"'; at++)
        if (*at == '\\')
            at++;
    return at < end ? at + 1 : end;
}

/* Behind the list or object that begins here. */
static const char *past_nested(const char *at, const char *end)
{
    int depth = 0;

    while (at < end) {
        if (*at == '"') {
            at = past_text(at, end);
            continue;
        }
        if (*at == '[' || *at == '{')
            depth++;
        if (*at == ']' || *at == '}')
            depth--;
        at++;
        if (depth == 0)
            return at;
    }
    return end;
}

static const char *past_value(const char *at, const char *end)
{
    if (*at == '"')
        return past_text(at, end);
    if (*at == '[' || *at == '{')
        return past_nested(at, end);
    while (at < end && strchr(",]}\n", *at) == NULL)
        at++;
    return at;
}

struct json json_first(const char *at, const char *end)
{
    at = past_marks(at, end);
    if (at == end || *at == ']' || *at == '}')
        return none;
    return (struct json){at, past_value(at, end)};
}

bool json_next(struct json list, struct json *item)
{
    if (list.at == NULL || *list.at != '[')
        return false;
    *item = json_first(item->at == NULL ? list.at + 1 : item->end, list.end);
    return item->at != NULL;
}

struct json json_get(struct json object, const char *key)
{
    if (object.at == NULL || *object.at != '{')
        return none;
    for (const char *at = object.at + 1;;) {
        struct json name = json_first(at, object.end);
        if (name.at == NULL)
            return none;
        struct json value = json_first(name.end, object.end);
        if (json_is_text(name, key))
            return value;
        at = value.end;
    }
}

bool json_is(struct json value)
{
    return value.at != NULL && *value.at != 'n';
}

bool json_is_text(struct json value, const char *text)
{
    size_t length = strlen(text);

    return value.at != NULL && *value.at == '"' && (size_t)(value.end - value.at) == length + 2 &&
           memcmp(value.at + 1, text, length) == 0;
}

/* The character that `\u` and four digits write; the library writes no others than control characters so. */
static char escaped(const char **at)
{
    char c = **at;

    switch (c) {
    case 'n':
        return '\n';
    case 't':
        return '\t';
    case 'r':
        return '\r';
    case 'b':
        return '\b';
    case 'f':
        return '\f';
    case 'u': {
        char digits[5] = {(*at)[1], (*at)[2], (*at)[3], (*at)[4], 0};
        *at += 4;
        return (char)strtoul(digits, NULL, 16);
    }
    default:
        return c;
    }
}

char *json_text(struct json value, size_t *length)
{
    if (value.at == NULL || *value.at != '"')
        return NULL;
    char *text = malloc((size_t)(value.end - value.at));
    if (text == NULL) {
        fputs("out of memory\n", stderr);
        exit(4);
    }
    char *to = text;
    for (const char *at = value.at + 1; at < value.end - 1; at++) {
        if (*at == '\\') {
            at++;
            *to++ = escaped(&at);
        } else {
            *to++ = *at;
        }
    }
    *to = 0;
    *length = (size_t)(to - text);
    return text;
}
