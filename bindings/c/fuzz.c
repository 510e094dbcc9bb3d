/* Random and mutated inputs to each function that reads one, in buffers of the exact size before guard pages. Words:
 * SEED ROUNDS FILE, the file an update's text in lines of 64 characters. It stops at the first difference. What is
 * compared: a text that is decoded encodes to itself, and the parts of an update are judged by the other calls. */
#include "kamzirda.h"

#include "guarded.h"

static uint64_t state;
static guarded in, out, more;

static uint64_t draw(uint64_t below)
{
    state ^= state << 13;
    state ^= state >> 7;
    state ^= state << 17;
    return state % below;
}

static void stop_unless(int holds, const char *what, const uint8_t *bytes, size_t len)
{
    if (holds) {
        return;
    }
    printf("difference: %s:", what);
    for (size_t i = 0; i < len && i < 200; i++) {
        printf(" %02x", bytes[i]);
    }
    printf("\n");
    exit(1);
}

static size_t random_bytes(uint8_t *at, size_t room)
{
    size_t len = draw(room);
    for (size_t i = 0; i < len; i++) {
        at[i] = (uint8_t)draw(256);
    }
    return len;
}

static void mutate(uint8_t *bytes, size_t len)
{
    static const uint8_t kept[] = "A/+=-_.0z\n\r\x30\x80\xff";
    for (uint64_t times = draw(3) + 1; len > 0 && times > 0; times--) {
        bytes[draw(len)] = draw(2) ? (uint8_t)draw(256) : kept[draw(sizeof kept - 1)];
    }
}

static void try_base64(void)
{
    uint8_t bytes[300], text[500];
    size_t bytes_len = random_bytes(bytes, sizeof bytes), len = 0, back = 0;
    uint32_t alphabet = (uint32_t)draw(9);
    uint8_t *coded = guarded_room(&out, KAMZIRDA_ENCODED_ROOM(bytes_len), 0);
    uint32_t status = kamzirda_base64_encode(alphabet, guarded_copy(&in, bytes, bytes_len), bytes_len, coded, KAMZIRDA_ENCODED_ROOM(bytes_len), &len);
    stop_unless(status == (alphabet < 8 ? 0u : 2u) && guarded_kept(coded), "encode", bytes, bytes_len);
    if (status != 0) {
        return;
    }
    memcpy(text, coded, len);
    uint8_t *plain = guarded_room(&out, bytes_len, 0);
    status = kamzirda_base64_decode(alphabet, guarded_copy(&in, text, len), len, plain, bytes_len, &back);
    stop_unless(status == 0 && back == bytes_len && memcmp(plain, bytes, bytes_len) == 0, "decode", text, len);
    mutate(text, len);
    plain = guarded_room(&out, bytes_len, 0);
    status = kamzirda_base64_decode(alphabet, guarded_copy(&in, text, len), len, plain, bytes_len, &back);
    stop_unless(guarded_kept(plain), "before the output", text, len);
    if (status == 0) {
        size_t again = 0;
        uint8_t *same = guarded_room(&more, len, 0);
        status = kamzirda_base64_encode(alphabet, plain, back, same, len, &again);
        stop_unless(status == 0 && again == len && memcmp(same, text, len) == 0, "decoded, and encodes to another text", text, len);
    }
}

static void try_document(const uint8_t *document, size_t document_len)
{
    uint8_t bytes[4096], digest[32];
    size_t len = document_len < sizeof bytes ? document_len : sizeof bytes, oid_len = 0;
    uint32_t rule = 0, again = 0;
    kamzirda_bits bits = {0, 0, 0};
    memcpy(bytes, document, len);
    mutate(bytes, len);
    len -= draw(8) == 0 && len > 0 ? 1 : 0;
    const uint8_t *at = guarded_copy(&in, bytes, len);
    uint32_t status = kamzirda_spki_fingerprint(at, len, &digest, &rule);
    stop_unless(kamzirda_spki_bits(at, len, &bits, &again) == status && again == rule, "two verdicts", bytes, len);
    uint8_t *oid = guarded_room(&out, 160, 0);
    stop_unless(kamzirda_spki_oid(at, len, oid, 160, &oid_len, &again) == status && again == rule, "two verdicts", bytes, len);
    stop_unless(status != 0 || (bits.offset + bits.len == len && bits.unused_bits < 8), "bits", bytes, len);
}

static void try_id(void)
{
    uint8_t text[300] = "spiffe://example.org/a/b";
    size_t len = draw(4) ? strlen((char *)text) : random_bytes(text, sizeof text);
    uint32_t rule = 0;
    kamzirda_id id = {0, 0, 0, 0};
    mutate(text, len);
    uint32_t status = kamzirda_spiffe_id(guarded_copy(&in, text, len), len, &id, &rule);
    stop_unless(status == 0 ? id.path_offset + id.path_len == len && id.domain_len > 0 : status == 1 && rule >= 21 && rule <= 31, "id", text, len);
    stop_unless(status != 0 || id.path_len == 0 || text[id.path_offset] == '/', "path", text, len);
}

static void try_update(const uint8_t *text, size_t text_len, size_t turned)
{
    uint8_t copy[1 << 14];
    uint32_t rule = 0, again = 0;
    kamzirda_counts counts = {0, 0};
    kamzirda_room room = {0, 0};
    memcpy(copy, text, text_len);
    for (; turned > 0; turned--) {
        mutate(copy, text_len);
    }
    const uint8_t *at = guarded_copy(&in, copy, text_len);
    uint32_t status = kamzirda_update_check(at, text_len, 64, &counts, &rule);
    kamzirda_entry entries[16];
    uint8_t *buffer = guarded_room(&out, text_len, 0);
    uint32_t told = kamzirda_update_entries(at, text_len, 64, entries, 16, buffer, text_len, &room, &again);
    stop_unless(told == status && again == rule && guarded_kept(buffer), "two verdicts", copy, text_len);
    for (size_t i = 0; status == 0 && i < room.count; i++) {
        uint8_t digest[32];
        uint32_t key = kamzirda_spki_fingerprint(buffer + entries[i].public_key.offset, entries[i].public_key.len, &digest, &rule);
        stop_unless(key == 0 && memcmp(digest, entries[i].fingerprint, 32) == 0, "public key", copy, text_len);
        kamzirda_id id = {0, 0, 0, 0};
        stop_unless(kamzirda_spiffe_id(buffer + entries[i].id.offset, entries[i].id.len, &id, &rule) == 0, "id", copy, text_len);
        try_document(buffer + entries[i].public_key.offset, entries[i].public_key.len);
    }
}

int main(int argc, char **argv)
{
    static uint8_t text[1 << 14];
    FILE *file = argc == 4 ? fopen(argv[3], "rb") : NULL;
    if (file == NULL) {
        return 2;
    }
    size_t text_len = fread(text, 1, sizeof text, file);
    fclose(file);
    state = strtoull(argv[1], NULL, 10) * 2 + 1;
    uint64_t rounds = strtoull(argv[2], NULL, 10);
    in = guarded_new();
    out = guarded_new();
    more = guarded_new();
    for (uint64_t i = 0; i < rounds; i++) {
        try_base64();
        try_id();
        if (i % 16 == 0) {
            try_update(text, text_len, draw(2));
        }
    }
    printf("%llu rounds, no difference\n", (unsigned long long)rounds);
    return 0;
}
