/*
 * Just enough of a reader for the library's answers, which are right JSON: a value is where it stands in the text, and nothing is
 * copied but the texts that are asked for.
 */
#ifndef JSON_H
#define JSON_H

#include <stdbool.h>
#include <stddef.h>

struct json {
    const char *at;
    const char *end;
};

/* The first value of a text, which begins at the place and ends before the end; an empty one where there is none. */
struct json json_first(const char *at, const char *end);

/* The value of a key of an object; an empty one where it has none. */
struct json json_get(struct json object, const char *key);

/* The next item of a list: `item` begins as an empty one. False where there is no other. */
bool json_next(struct json list, struct json *item);

/* Whether it is there, and is not null. */
bool json_is(struct json value);

/* Whether it is a text, and this one. */
bool json_is_text(struct json value, const char *text);

/* A text in UTF-8 with a zero byte behind it, to be freed, and how many bytes it has; NULL where it is none. */
char *json_text(struct json value, size_t *length);

#endif
