/* Prints the SPIFFE IDs of an update and the fingerprints of their public keys. Words: FILE WIDTH. */
#include "kamzirda.h"

#include <errno.h>
#include <stdio.h>
#include <stdlib.h>
#include <string.h>

static uint8_t *read_file(const char *path, size_t *len)
{
    FILE *file = fopen(path, "rb");
    uint8_t *text = malloc((1 << 24) + 1);
    if (file == NULL || text == NULL) {
        free(text);
        return NULL;
    }
    *len = fread(text, 1, 1 << 24, file);
    fclose(file);
    return text;
}

static int tell_refusal(const uint8_t *text, size_t text_len, size_t width)
{
    uint8_t line[128];
    size_t len = 0;
    uint32_t status = kamzirda_update_refusal(text, text_len, width, line, sizeof line, &len);
    if (status == KAMZIRDA_REFUSED) {
        fwrite(line, 1, len, stdout);
    }
    return (int)status;
}

static void print_entries(const kamzirda_entry *entries, size_t count, const uint8_t *buffer)
{
    for (size_t i = 0; i < count; i++) {
        uint8_t text[KAMZIRDA_ENCODED_ROOM(32)];
        size_t len = 0;
        kamzirda_base64_encode(KAMZIRDA_STANDARD, entries[i].fingerprint, 32, text, sizeof text, &len);
        fwrite(buffer + entries[i].id.offset, 1, entries[i].id.len, stdout);
        printf(" %.*s\n", (int)len, (const char *)text);
    }
}

int main(int argc, char **argv)
{
    if (argc != 3) {
        return KAMZIRDA_NO_CHOICE;
    }
    size_t text_len = 0, width = strtoul(argv[2], NULL, 10);
    uint8_t *text = read_file(argv[1], &text_len);
    if (text == NULL) {
        fprintf(stderr, "%s: %s\n", argv[1], strerror(errno));
        return 3;
    }
    kamzirda_counts counts;
    uint32_t rule = 0;
    memset(&counts, 0, sizeof counts);
    uint32_t status = kamzirda_update_check(text, text_len, width, &counts, &rule);
    if (status != KAMZIRDA_DONE) {
        int answer = status == KAMZIRDA_REFUSED ? tell_refusal(text, text_len, width) : (int)status;
        free(text);
        return answer;
    }
    /* One element and one byte more: a null pointer is none even where there is nothing. */
    kamzirda_entry *entries = calloc(counts.entries + 1, sizeof *entries);
    uint8_t *buffer = calloc(text_len + 1, 1);
    kamzirda_room room = {0, 0};
    status = KAMZIRDA_NO_MEMORY;
    if (entries != NULL && buffer != NULL) {
        status = kamzirda_update_entries(text, text_len, width, entries, counts.entries, buffer, text_len, &room, &rule);
    }
    if (status == KAMZIRDA_DONE) {
        print_entries(entries, room.count, buffer);
    }
    /* The text and the buffer hold private keys: a program that lives on wipes them. */
    free(text);
    free(entries);
    free(buffer);
    return (int)status;
}
