/*
 * Writes all attachments of a message into a folder, each under its identifier and its name: attachments FILE MESSAGE FOLDER
 * The bytes are written from the mapped file, by the places of props --places. What embeds a message is only listed.
 */
#include "json.h"
#include "store.h"

#include <stdio.h>
#include <stdlib.h>
#include <string.h>

/* The property with an identifier. */
static struct json property(struct json attachment, const char *id)
{
    struct json prop = {NULL, NULL};
    struct json props = json_get(attachment, "props");

    while (json_next(props, &prop))
        if (json_is_text(json_get(prop, "id"), id))
            return prop;
    return (struct json){NULL, NULL};
}

/* The text of a property; NULL where it is none, or an empty one. */
static char *text_of(struct json attachment, const char *id)
{
    struct json prop = property(attachment, id);
    size_t length;

    if (!json_is_text(json_get(prop, "type"), "001F"))
        return NULL;
    char *text = json_text(json_get(prop, "value"), &length);
    if (text != NULL && length == 0) {
        free(text);
        return NULL;
    }
    return text;
}

/* Its long name, else its short one, with no character that a file name may not have. To be freed. */
static char *name_of(struct json attachment)
{
    char *name = text_of(attachment, "3707");

    if (name == NULL)
        name = text_of(attachment, "3704");
    if (name == NULL)
        name = strdup("unnamed");
    for (char *at = name; at != NULL && *at != 0; at++)
        if ((unsigned char)*at < 32 || *at == '/' || *at == '\\')
            *at = '_';
    return name;
}

/* Writes a value piece by piece from where it lies. Gives its length, or -1. */
static long write_value(const struct store *store, struct json value, FILE *out)
{
    struct json place = {NULL, NULL};
    struct json places = json_get(value, "places");
    long written = 0;

    while (json_next(places, &place)) {
        char *behind;
        size_t at = strtoull(place.at + 1, &behind, 10);
        size_t length = strtoull(behind + 1, NULL, 10);
        if (fwrite((const char *)store->bytes + at, 1, length, out) != length)
            return -1;
        written += (long)length;
    }
    return written;
}

static bool write_attachment(const struct store *store, struct json attachment, const char *folder)
{
    struct json value = property(attachment, "3701");
    size_t length;
    char *nid = json_text(json_get(attachment, "nid"), &length);
    char *name = name_of(attachment);
    char path[4096];
    bool fits = false;

    if (nid != NULL && name != NULL)
        fits = (size_t)snprintf(path, sizeof path, "%s/%s-%s", folder, nid, name) < sizeof path;
    if (fits && json_is_text(json_get(value, "type"), "0102")) {
        FILE *out = fopen(path, "wb");
        long written = out == NULL ? -1 : write_value(store, value, out);
        fits = out != NULL && fclose(out) == 0 && written >= 0;
        printf("%s %s %ld\n", nid, name, written);
    } else if (fits) {
        printf("%s %s none\n", nid, name);
    }
    free(name);
    free(nid);
    return fits;
}

int main(int count, char **words)
{
    struct store store;
    struct pst_answer answer;
    struct json attachment = {NULL, NULL};

    if (count != 4) {
        fprintf(stderr, "usage: %s FILE MESSAGE FOLDER\n", words[0]);
        return 2;
    }
    if (!store_open(&store, words[1]))
        return 3;
    store_need(&store, &answer, (const char *const[]){"props", "--places", "-", words[2], NULL});

    struct json message = json_first(answer.text.at, answer.text.at + answer.text.length);
    struct json attachments = json_get(message, "attachments");
    bool written = true;
    while (json_next(attachments, &attachment))
        written = write_attachment(&store, attachment, words[3]) && written;

    pst_free(&answer);
    store_close(&store);
    return written ? 0 : 3;
}
