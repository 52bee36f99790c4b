/* Parses the record text on standard input TIMES times with expat and prints its node count.
 *
 * Usage: expat_speed TIMES < record
 *
 * The text is put inside a root element, since a record text may have several elements at the
 * top. Each time has a parser of its own, as each opening of a record starts anew. */

#include <expat.h>
#include <stdio.h>
#include <stdlib.h>
#include <string.h>

static const char ROOT_OPENING[] = "<root>";
static const char ROOT_CLOSING[] = "</root>";

struct counts {
    long started;
    long ended;
    long characters;
};

static void XMLCALL on_start(void *data, const XML_Char *name, const XML_Char **attributes) {
    struct counts *counts = data;
    (void)name;
    (void)attributes;
    counts->started += 1;
}

static void XMLCALL on_end(void *data, const XML_Char *name) {
    struct counts *counts = data;
    (void)name;
    counts->ended += 1;
}

static void XMLCALL on_characters(void *data, const XML_Char *characters, int length) {
    struct counts *counts = data;
    (void)characters;
    counts->characters += length;
}

static void fail(const char *why) {
    fprintf(stderr, "expat_speed: %s\n", why);
    exit(1);
}

/* Appends bytes to the document, which grows as needed. */
static void append(char **document, size_t *length, size_t *room, const char *bytes, size_t count) {
    if (*length + count > *room) {
        *room = 2 * (*length + count);
        *document = realloc(*document, *room);
        if (*document == NULL) fail("no memory");
    }
    memcpy(*document + *length, bytes, count);
    *length += count;
}

static struct counts parse_once(const char *document, size_t length) {
    struct counts counts = {0, 0, 0};
    XML_Parser parser = XML_ParserCreate("UTF-8");
    if (parser == NULL) fail("no parser");
    XML_SetUserData(parser, &counts);
    XML_SetElementHandler(parser, on_start, on_end);
    XML_SetCharacterDataHandler(parser, on_characters);
    if (XML_Parse(parser, document, (int)length, XML_TRUE) != XML_STATUS_OK) fail("the text is not well formed");
    XML_ParserFree(parser);
    return counts;
}

int main(int argc, char **argv) {
    if (argc != 2) fail("usage: expat_speed TIMES < record");
    long times = strtol(argv[1], NULL, 10);
    if (times < 1) fail("TIMES must be at least 1");

    char *document = NULL;
    size_t length = 0;
    size_t room = 0;
    char block[65536];
    size_t count;
    append(&document, &length, &room, ROOT_OPENING, strlen(ROOT_OPENING));
    while ((count = fread(block, 1, sizeof block, stdin)) > 0) append(&document, &length, &room, block, count);
    append(&document, &length, &room, ROOT_CLOSING, strlen(ROOT_CLOSING));

    struct counts counts = {0, 0, 0};
    for (long time = 0; time < times; time += 1) counts = parse_once(document, length);
    if (counts.started != counts.ended) fail("a start without an end");
    printf("%ld\n", counts.started - 1);
    free(document);
    return 0;
}
