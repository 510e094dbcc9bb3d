/* Calls each function with buffers of the exact size before guard pages. The word is a file with an update's text in
 * lines of 64 characters. What is wanted comes from RFC 4648, RFC 8410, openssl and docs/FORMATS.md. */
#include "kamzirda.h"

#include "guarded.h"

static int failed = 0;
static int made = 0;

static void expect(const char *what, int holds)
{
    made++;
    if (!holds) {
        printf("FAILED %s\n", what);
        failed = 1;
    }
}

static int same(const uint8_t *bytes, size_t len, const char *wanted)
{
    return len == strlen(wanted) && memcmp(bytes, wanted, len) == 0;
}

static guarded in, out, more;

static const uint8_t *input(const char *text)
{
    return guarded_copy(&in, text, strlen(text));
}

static void try_base64(void)
{
    /* RFC 4648 section 10; the others by the tables of their alphabets. */
    static const struct {
        uint32_t alphabet;
        const char *bytes, *text;
    } rows[] = {
        {KAMZIRDA_STANDARD, "", ""},
        {KAMZIRDA_STANDARD, "f", "Zg=="},
        {KAMZIRDA_STANDARD, "fo", "Zm8="},
        {KAMZIRDA_STANDARD, "foobar", "Zm9vYmFy"},
        {KAMZIRDA_STANDARD_UNPADDED, "foob", "Zm9vYg"},
        {KAMZIRDA_STANDARD, "\xfb\xff", "+/8="},
        {KAMZIRDA_URL, "\xfb\xff", "-_8="},
        {KAMZIRDA_URL_UNPADDED, "\xfb\xff", "-_8"},
        {KAMZIRDA_PBKDF2, "\xfb\xff", "./8"},
        {KAMZIRDA_BCRYPT, "foob", "Xk7tWe"},
        {KAMZIRDA_CRYPT, "foob", "NaxjMU"},
        {KAMZIRDA_SHA_CRYPT, "foob", "axqPW/"},
    };
    for (size_t i = 0; i < sizeof rows / sizeof rows[0]; i++) {
        size_t bytes_len = strlen(rows[i].bytes), text_len = strlen(rows[i].text), len = 77;
        expect("encoded length", kamzirda_base64_encoded_len(rows[i].alphabet, input(rows[i].bytes), bytes_len, &len) == 0 && len == text_len);
        uint8_t *text = guarded_room(&out, text_len, 1);
        expect("encode", kamzirda_base64_encode(rows[i].alphabet, input(rows[i].bytes), bytes_len, text, text_len, &len) == 0);
        expect(rows[i].text, same(text, len, rows[i].text) && guarded_kept(text));
        uint8_t *bytes = guarded_room(&out, bytes_len, 1);
        expect("decode", kamzirda_base64_decode(rows[i].alphabet, input(rows[i].text), text_len, bytes, bytes_len, &len) == 0);
        expect(rows[i].bytes, same(bytes, len, rows[i].bytes) && guarded_kept(bytes));
        if (text_len > 0) {
            len = 77;
            text = guarded_room(&out, text_len - 1, 9);
            expect("no room to encode", kamzirda_base64_encode(rows[i].alphabet, input(rows[i].bytes), bytes_len, text, text_len - 1, &len) == 8);
            expect("the room that it wants", len == text_len && text[0] == 9);
            len = 77;
            bytes = guarded_room(&out, bytes_len - 1, 9);
            expect("no room to decode", kamzirda_base64_decode(rows[i].alphabet, input(rows[i].text), text_len, bytes, bytes_len - 1, &len) == 8);
            expect("kept", len == 77);
        }
    }
    static const char *const refused[] = {"Zg=", "Zh==", "Zg", "Z===", "Zm9v\n", " Zg==", "Zm9*"};
    for (size_t i = 0; i < sizeof refused / sizeof refused[0]; i++) {
        size_t len = 77;
        uint8_t *bytes = guarded_room(&out, 6, 9);
        expect(refused[i], kamzirda_base64_decode(0, input(refused[i]), strlen(refused[i]), bytes, 6, &len) == 1 && len == 77);
    }
    size_t len = 77;
    expect("no ninth alphabet", kamzirda_base64_encode(8, input("f"), 1, guarded_room(&out, 4, 9), 4, &len) == 2 && len == 77);
    expect("no ninth alphabet", kamzirda_base64_decode(8, input("Zg=="), 4, guarded_room(&out, 4, 9), 4, &len) == 2 && len == 77);
    expect("no ninth alphabet", kamzirda_base64_encoded_len(8, input("f"), 1, &len) == 2 && len == 77);
}

static void try_keys(void)
{
    /* The public key of RFC 8410, section 10.1. */
    static const char text[] = "MCowBQYDK2VwAyEAGb9ECWmEzf6FQbrBZ9w7lshQhqowtrbLDFw4rXAxZuE=";
    uint8_t document[64];
    size_t document_len = 0, len = 77;
    uint32_t rule = 77;
    expect("its text", kamzirda_base64_decode(0, input(text), sizeof text - 1, document, sizeof document, &document_len) == 0 && document_len == 44);
    uint8_t(*digest)[32] = (uint8_t(*)[32])guarded_room(&out, 32, 0);
    expect("fingerprint", kamzirda_spki_fingerprint(guarded_copy(&in, document, 44), 44, digest, &rule) == 0 && rule == 77);
    uint8_t shown[44];
    expect("its text", kamzirda_base64_encode(0, *digest, 32, shown, 44, &len) == 0);
    /* openssl dgst -sha256 -binary | base64 */
    expect("digest", same(shown, len, "oekVYFTgT6yJmunydRMs3Ael28TqLCrTof/G4NJTaB8="));
    uint8_t *oid = guarded_room(&out, 11, 0);
    expect("OID", kamzirda_spki_oid(guarded_copy(&in, document, 44), 44, oid, 11, &len, &rule) == 0 && same(oid, len, "1.3.101.112"));
    oid = guarded_room(&out, 10, 9);
    expect("OID without room", kamzirda_spki_oid(guarded_copy(&in, document, 44), 44, oid, 10, &len, &rule) == 8 && len == 11 && oid[0] == 9);
    kamzirda_bits *bits = (kamzirda_bits *)(void *)guarded_room(&out, sizeof(kamzirda_bits), 0);
    expect("bits", kamzirda_spki_bits(guarded_copy(&in, document, 44), 44, bits, &rule) == 0);
    expect("their place", bits->offset == 12 && bits->len == 32 && bits->unused_bits == 0 && document[12] == 0x19);
    for (size_t short_len = 0; short_len < 44; short_len++) {
        expect("a front", kamzirda_spki_fingerprint(guarded_copy(&in, document, short_len), short_len, digest, &rule) == 1 && rule == 3);
    }
    document[44] = 0;
    expect("a trail", kamzirda_spki_fingerprint(guarded_copy(&in, document, 45), 45, digest, &rule) == 1 && rule == 4);
}

static void try_ids(void)
{
    static const struct {
        const char *text;
        uint32_t status, rule;
        size_t domain_len, path_len;
    } rows[] = {
        {"spiffe://Example.org/a", 0, 77, 11, 2}, {"SPIFFE://x", 0, 77, 1, 0},
        {"", 1, 21, 0, 0},                        {"spiffe://", 1, 22, 0, 0},
        {"http://x", 1, 23, 0, 0},                {"spiffe://x y", 1, 24, 0, 0},
        {"spiffe://x/a b", 1, 25, 0, 0},          {"spiffe://x//a", 1, 26, 0, 0},
        {"spiffe://x/../a", 1, 27, 0, 0},         {"spiffe://x/", 1, 28, 0, 0},
        {"spiffe://\xff", 1, 31, 0, 0},
    };
    for (size_t i = 0; i < sizeof rows / sizeof rows[0]; i++) {
        uint32_t rule = 77;
        kamzirda_id *id = (kamzirda_id *)(void *)guarded_room(&out, sizeof(kamzirda_id), 0);
        expect(rows[i].text, kamzirda_spiffe_id(input(rows[i].text), strlen(rows[i].text), id, &rule) == rows[i].status && rule == rows[i].rule);
        if (rows[i].status == 0) {
            expect("its places", id->domain_offset == 9 && id->domain_len == rows[i].domain_len && id->path_offset == 9 + rows[i].domain_len
                && id->path_len == rows[i].path_len && id->path_offset + id->path_len == strlen(rows[i].text));
        }
    }
}

static void try_texts(void)
{
    uint8_t *text = guarded_room(&out, 64, 0);
    size_t len = 77;
    expect("version", kamzirda_version() == KAMZIRDA_VERSION);
    expect("text", kamzirda_rule_text(KAMZIRDA_ID_DOT_SEGMENT, text, 64, &len) == 0 && same(text, len, "dot segment"));
    for (uint32_t rule = 0; rule < 100; rule++) {
        int known = (rule >= 1 && rule <= 12) || (rule >= 21 && rule <= 31);
        expect("each rule has a text", kamzirda_rule_text(rule, text, 64, &len) == (known ? 0u : 2u));
        expect("without room", kamzirda_rule_text(rule, text, 0, &len) == (known ? 8u : 2u));
    }
}

static void try_update(const uint8_t *text, size_t text_len)
{
    kamzirda_counts counts = {77, 77};
    kamzirda_room room = {77, 77};
    uint32_t rule = 77;
    size_t len = 77;
    const uint8_t *at = guarded_copy(&in, text, text_len);
    expect("update", kamzirda_update_check(at, text_len, 64, &counts, &rule) == 0 && counts.entries == 1 && counts.bundles == 1 && rule == 77);
    expect("no refusal", kamzirda_update_refusal(at, text_len, 64, guarded_room(&out, 128, 9), 128, &len) == 0 && len == 77);
    expect("another width", kamzirda_update_check(at, text_len, 63, &counts, &rule) == 1 && rule == KAMZIRDA_TEXT_ENCODING);
    uint8_t *line = guarded_room(&out, 40, 9);
    expect("its line", kamzirda_update_refusal(at, text_len, 63, line, 40, &len) == 1 && same(line, len, "refused: text: invalid Base64 encoding\n"));
    line = guarded_room(&out, 2, 9);
    expect("no room for it", kamzirda_update_refusal(at, text_len, 63, line, 2, &len) == 8 && len == 39 && line[0] == 9);

    kamzirda_entry *none = (kamzirda_entry *)(void *)guarded_room(&more, 0, 0);
    expect("no room", kamzirda_update_entries(at, text_len, 64, none, 0, guarded_room(&out, 0, 0), 0, &room, &rule) == 8 && room.count == 1);
    size_t bytes = room.bytes;
    kamzirda_entry *entries = (kamzirda_entry *)(void *)guarded_room(&more, sizeof *entries, 0);
    uint8_t *buffer = guarded_room(&out, bytes, 0);
    expect("entries", kamzirda_update_entries(at, text_len, 64, entries, 1, buffer, bytes, &room, &rule) == 0 && room.count == 1 && room.bytes == bytes);
    expect("id", memcmp(buffer + entries->id.offset, "spiffe://", 9) == 0);
    uint8_t digest[32];
    expect("public key", kamzirda_spki_fingerprint(buffer + entries->public_key.offset, entries->public_key.len, &digest, &rule) == 0
        && memcmp(digest, entries->fingerprint, 32) == 0);
    expect("all of it", entries->public_key.offset + entries->public_key.len == bytes && guarded_kept(buffer));
}

int main(int argc, char **argv)
{
    static uint8_t text[1 << 15];
    FILE *file = argc == 2 ? fopen(argv[1], "rb") : NULL;
    if (file == NULL) {
        return 2;
    }
    size_t text_len = fread(text, 1, sizeof text, file);
    fclose(file);
    in = guarded_new();
    out = guarded_new();
    more = guarded_new();
    try_base64();
    try_keys();
    try_ids();
    try_texts();
    try_update(text, text_len);
    printf("%d expectations, %s\n", made, failed ? "failed" : "passed");
    return failed;
}
