/* A table of all messages of a store, as CSV: messages FILE */
#include "json.h"
#include "store.h"

#include <stdio.h>
#include <stdlib.h>
#include <string.h>

static void put(const char *text, size_t length)
{
    for (size_t n = 0; n < length; n++) {
        if (text[n] == '"')
            putchar('"');
        putchar(text[n]);
    }
}

/* A text in quotes; nothing for null. */
static void put_text(struct json value)
{
    size_t length;
    char *text = json_text(value, &length);

    if (text == NULL)
        return;
    putchar('"');
    put(text, length);
    putchar('"');
    free(text);
}

/* A subject without the two characters in front that say how long its prefix is. The second of them may be any. */
static void put_title(struct json subject)
{
    size_t length;
    char *text = json_text(subject, &length);
    size_t skipped = 0;

    if (text != NULL && length > 0 && text[0] == 1) {
        skipped = length > 1 ? 2 : 1;
        while (skipped < length && ((unsigned char)text[skipped] & 0xc0) == 0x80)
            skipped++;
    }
    putchar('"');
    if (text != NULL)
        put(text + skipped, length - skipped);
    putchar('"');
    free(text);
}

/* The name of a folder, or its identifier where it has none. */
static void put_folder(struct json folders, struct json nid)
{
    struct json folder = {NULL, NULL};
    size_t length;
    char *text = NULL;

    while (text == NULL && json_next(folders, &folder)) {
        struct json own = json_get(folder, "nid");
        if (own.end - own.at == nid.end - nid.at && memcmp(own.at, nid.at, (size_t)(own.end - own.at)) == 0)
            text = json_text(json_get(folder, "name"), &length);
    }
    if (text == NULL)
        text = json_text(nid, &length);
    if (text != NULL)
        put(text, length);
    free(text);
}

static void put_message(struct json folders, struct json message)
{
    struct json nid = {NULL, NULL};
    struct json size = json_get(message, "size");
    const char *between = "";

    put_text(json_get(message, "nid"));
    putchar(',');
    put_text(json_get(message, "sent"));
    putchar(',');
    put_text(json_get(message, "sender"));
    putchar(',');
    put_title(json_get(message, "subject"));
    putchar(',');
    if (json_is(size))
        fwrite(size.at, 1, (size_t)(size.end - size.at), stdout);
    fputs(",\"", stdout);
    for (struct json in = json_get(message, "folders"); json_next(in, &nid); between = "; ") {
        fputs(between, stdout);
        put_folder(folders, nid);
    }
    fputs("\"\n", stdout);
}

int main(int count, char **words)
{
    struct store store;
    struct pst_answer folders, messages;

    if (count != 2) {
        fprintf(stderr, "usage: %s FILE\n", words[0]);
        return 2;
    }
    if (!store_open(&store, words[1]))
        return 3;
    store_need(&store, &folders, (const char *const[]){"folders", "-", NULL});
    store_need(&store, &messages, (const char *const[]){"messages", "-", NULL});

    struct json list = json_get(json_first(folders.text.at, folders.text.at + folders.text.length), "folders");
    const char *end = messages.text.at + messages.text.length;
    if (messages.text.length > 0)
        for (struct json line = json_first(messages.text.at, end); line.at != NULL; line = json_first(line.end, end))
            put_message(list, line);

    pst_free(&messages);
    pst_free(&folders);
    store_close(&store);
    return fflush(stdout) == 0 ? 0 : 3;
}
