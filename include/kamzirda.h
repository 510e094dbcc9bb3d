/* Kamzirda for C: Base64 texts, public keys, SPIFFE IDs, and updates with their identities.
 *
 * Behind each function stands a proof that it does what is written here, for every input that keeps the rules below.
 *
 * What a caller owes, and nothing checks:
 *   - No pointer is null, also where its length is 0.
 *   - An output overlaps no input and no other output.
 *   - Each buffer and each record that is passed in is initialized in its whole length.
 *   - malloc, realloc and free come from one allocator. No call is made from a signal handler, nor in the child of a
 *     process with threads before it calls exec.
 *
 * What a caller has:
 *   - A function keeps nothing between calls, waits for nothing and starts no thread. Any number of threads may call at
 *     once, each with outputs of its own.
 *   - It writes into the buffers that it was given, never behind their end, and frees all memory that it took.
 *   - A text has no NUL behind it. Lengths are in bytes, or in elements of an array.
 *
 * Each function answers a status (kamzirda_version, a version):
 */
#ifndef KAMZIRDA_H
#define KAMZIRDA_H

#include <stddef.h>
#include <stdint.h>

#ifdef __cplusplus
extern "C" {
#endif

#if defined(__GNUC__) && !defined(KAMZIRDA_NO_ATTRIBUTES)
#define KAMZIRDA_NONNULL __attribute__((nonnull))
#else
#define KAMZIRDA_NONNULL
#endif

#ifdef __cplusplus
#define KAMZIRDA_ALONE
#else
#define KAMZIRDA_ALONE restrict
#endif

/* Of a status that a program of this project has too, the number is the same. */
enum kamzirda_status {
    KAMZIRDA_DONE = 0,
    KAMZIRDA_REFUSED = 1,   /* the input breaks a rule; its number is in *rule, where the function has one */
    KAMZIRDA_NO_CHOICE = 2, /* no alphabet, or no rule, has this number */
    KAMZIRDA_NO_MEMORY = 5,
    KAMZIRDA_TOO_LARGE = 6, /* the input is longer than an encoding can be */
    KAMZIRDA_NO_ROOM = 8    /* an output is too short; but for decoding, the length that it wants is told */
};

/* Unless a function says otherwise, with each other status than KAMZIRDA_DONE all outputs are as they were; with
 * KAMZIRDA_REFUSED *rule is written, and with KAMZIRDA_NO_ROOM the length. Behind what is written an output is as it
 * was. */

/* The rules. An update's are tried in the order of docs/FORMATS.md, a SPIFFE ID's from the left. */
enum kamzirda_rule {
    KAMZIRDA_TEXT_ENCODING = 1,
    KAMZIRDA_TEXT_LENGTH = 2,
    KAMZIRDA_MALFORMED = 3,
    KAMZIRDA_TRAILING_DATA = 4,
    KAMZIRDA_NO_IDENTITY = 5,
    KAMZIRDA_WITHDRAWAL_WITH_IDENTITIES = 6,
    KAMZIRDA_SUBJECT = 7,
    KAMZIRDA_ALGORITHMS_DIFFER = 8,
    KAMZIRDA_PUBLIC_KEYS_DIFFER = 9,
    KAMZIRDA_DOMAIN = 10,
    KAMZIRDA_AUTHORITIES = 11,
    KAMZIRDA_NO_BUNDLE = 12,
    KAMZIRDA_ID_EMPTY = 21,
    KAMZIRDA_ID_TRUST_DOMAIN_MISSING = 22,
    KAMZIRDA_ID_WRONG_SCHEME = 23,
    KAMZIRDA_ID_TRUST_DOMAIN_CHARACTER = 24,
    KAMZIRDA_ID_PATH_CHARACTER = 25,
    KAMZIRDA_ID_EMPTY_SEGMENT = 26,
    KAMZIRDA_ID_DOT_SEGMENT = 27,
    KAMZIRDA_ID_TRAILING_SLASH = 28,
    KAMZIRDA_ID_TOO_LONG = 29,
    KAMZIRDA_ID_TRUST_DOMAIN_TOO_LONG = 30,
    KAMZIRDA_ID_NOT_UTF8 = 31
};

/* The alphabets of Base64. Those with a name ending in _UNPADDED and the last four have no padding. */
enum kamzirda_alphabet {
    KAMZIRDA_STANDARD = 0,
    KAMZIRDA_STANDARD_UNPADDED = 1,
    KAMZIRDA_URL = 2,
    KAMZIRDA_URL_UNPADDED = 3,
    KAMZIRDA_BCRYPT = 4,
    KAMZIRDA_PBKDF2 = 5,
    KAMZIRDA_CRYPT = 6,
    KAMZIRDA_SHA_CRYPT = 7 /* crypt's characters, the low bits first */
};

/* 10000 times the major version, 100 times the minor one, and the patch. */
#define KAMZIRDA_VERSION 100u

/* The version of the archive. It is KAMZIRDA_VERSION where header and archive belong together. */
uint32_t kamzirda_version(void);

/* What the breach of a rule is called, in ASCII, without an end of line. 64 bytes of room are enough.
 * Statuses: DONE, NO_CHOICE, NO_ROOM. */
KAMZIRDA_NONNULL uint32_t kamzirda_rule_text(uint32_t rule, uint8_t *KAMZIRDA_ALONE text, size_t text_room, size_t *KAMZIRDA_ALONE len);

/* Base64 (RFC 4648 section 4, and the same way with other characters).
 *
 *     uint8_t text[KAMZIRDA_ENCODED_ROOM(sizeof digest)];
 *     size_t len;
 *     if (kamzirda_base64_encode(KAMZIRDA_STANDARD, digest, sizeof digest, text, sizeof text, &len) == KAMZIRDA_DONE)
 *         fwrite(text, 1, len, stdout);
 */

/* Room that is enough for the encoding of n bytes, and for what n characters decode to. */
#define KAMZIRDA_ENCODED_ROOM(n) (((n) + 2) / 3 * 4)
#define KAMZIRDA_DECODED_ROOM(n) ((n) / 4 * 3 + 3)

/* The length of the encoding of some bytes. Statuses: DONE, NO_CHOICE, TOO_LARGE (4 * bytes_len exceeds SIZE_MAX). */
KAMZIRDA_NONNULL uint32_t kamzirda_base64_encoded_len(uint32_t alphabet, const uint8_t *bytes, size_t bytes_len, size_t *KAMZIRDA_ALONE len);

/* Encodes bytes to the front of a text. Statuses: DONE, NO_CHOICE, TOO_LARGE, NO_ROOM. */
KAMZIRDA_NONNULL uint32_t kamzirda_base64_encode(uint32_t alphabet, const uint8_t *bytes, size_t bytes_len, uint8_t *KAMZIRDA_ALONE text,
    size_t text_room, size_t *KAMZIRDA_ALONE len);

/* Decodes a text to the front of some bytes, if it is the canonical encoding of them (RFC 4648 section 3.5): no other
 * character, no blank, the right padding, and 0 in the bits that are left over. Statuses: DONE, REFUSED, NO_CHOICE,
 * NO_ROOM. That a padded text has whole blocks is tried before the room, the rest after it. With each status but DONE
 * *len is as it was, and the first bytes of the output, as many as the text's length tells, may hold anything. */
KAMZIRDA_NONNULL uint32_t kamzirda_base64_decode(uint32_t alphabet, const uint8_t *text, size_t text_len, uint8_t *KAMZIRDA_ALONE bytes,
    size_t bytes_room, size_t *KAMZIRDA_ALONE len);

/* Public keys: a SubjectPublicKeyInfo in DER (RFC 5280, section 4.1.2.7), and nothing behind it.
 * Statuses: DONE, REFUSED (KAMZIRDA_MALFORMED, KAMZIRDA_TRAILING_DATA), NO_MEMORY, and NO_ROOM for the OID.
 *
 *     uint8_t digest[32];
 *     uint32_t rule;
 *     if (kamzirda_spki_fingerprint(document, len, &digest, &rule) == KAMZIRDA_REFUSED)
 *         ...
 */

/* The SHA-256 digest of the document (RFC 7469, section 2.4). */
KAMZIRDA_NONNULL uint32_t kamzirda_spki_fingerprint(const uint8_t *document, size_t document_len, uint8_t (*KAMZIRDA_ALONE digest)[32],
    uint32_t *KAMZIRDA_ALONE rule);

/* The object identifier of the algorithm, as 1.2.840.10045.2.1. 160 bytes of room are enough. */
KAMZIRDA_NONNULL uint32_t kamzirda_spki_oid(const uint8_t *document, size_t document_len, uint8_t *KAMZIRDA_ALONE text, size_t text_room,
    size_t *KAMZIRDA_ALONE len, uint32_t *KAMZIRDA_ALONE rule);

typedef struct kamzirda_bits {
    size_t offset;        /* where the octets begin in the document */
    size_t len;           /* how many there are */
    uint32_t unused_bits; /* of the last one, 0 to 7 */
} kamzirda_bits;

/* The key's own bits, which the document ends with. */
KAMZIRDA_NONNULL uint32_t kamzirda_spki_bits(const uint8_t *document, size_t document_len, kamzirda_bits *KAMZIRDA_ALONE bits,
    uint32_t *KAMZIRDA_ALONE rule);

typedef struct kamzirda_id {
    size_t domain_offset; /* of the trust domain's name in the text */
    size_t domain_len;
    size_t path_offset; /* of the path, with its slash */
    size_t path_len;    /* 0 for the id of a trust domain */
} kamzirda_id;

/* Judges the text of a SPIFFE ID. The name of its trust domain may stand in either case: in lower case it is the
 * canonical one. Statuses: DONE, REFUSED (KAMZIRDA_ID_...), NO_MEMORY. */
KAMZIRDA_NONNULL uint32_t kamzirda_spiffe_id(const uint8_t *text, size_t text_len, kamzirda_id *KAMZIRDA_ALONE id, uint32_t *KAMZIRDA_ALONE rule);

/* Updates: the text of one, in lines of `width` characters (docs/FORMATS.md). Statuses: DONE, REFUSED (1 to 12),
 * NO_MEMORY, and NO_ROOM. Each call reads the text anew: kamzirda_update_entries
 * tells all entries at once. The text holds private keys, and so does a buffer that entries are laid into: wipe both behind you. */

typedef struct kamzirda_counts {
    size_t entries; /* 0 where the update withdraws all identities */
    size_t bundles; /* with those that a later one replaces */
} kamzirda_counts;

/* Whether the text lawfully writes an update, and how much it lists. */
KAMZIRDA_NONNULL uint32_t kamzirda_update_check(const uint8_t *text, size_t text_len, size_t width, kamzirda_counts *KAMZIRDA_ALONE counts,
    uint32_t *KAMZIRDA_ALONE rule);

/* The line of the first rule that the text breaks, as the programs print it, with its end of line: REFUSED. 128 bytes of
 * room are enough. DONE: it breaks none, and nothing is written. */
KAMZIRDA_NONNULL uint32_t kamzirda_update_refusal(const uint8_t *text, size_t text_len, size_t width, uint8_t *KAMZIRDA_ALONE line, size_t line_room,
    size_t *KAMZIRDA_ALONE len);

typedef struct kamzirda_part {
    size_t offset; /* where bytes begin in the buffer */
    size_t len;    /* how many there are */
} kamzirda_part;

typedef struct kamzirda_entry {
    kamzirda_part id;          /* its SPIFFE ID, canonical */
    kamzirda_part private_key; /* PKCS #8, DER, with attributes and without extensions */
    kamzirda_part public_key;  /* SubjectPublicKeyInfo, DER */
    uint8_t fingerprint[32];   /* the SHA-256 digest of the public key's document */
} kamzirda_entry;

typedef struct kamzirda_room {
    size_t count; /* elements of the array */
    size_t bytes; /* bytes of the buffer */
} kamzirda_room;

/* Tells the entries in their order, and lays their bytes one behind the other into the buffer. A buffer of text_len bytes
 * is enough. DONE and NO_ROOM: *room is what they take. */
KAMZIRDA_NONNULL uint32_t kamzirda_update_entries(const uint8_t *text, size_t text_len, size_t width, kamzirda_entry *KAMZIRDA_ALONE entries,
    size_t entries_room, uint8_t *KAMZIRDA_ALONE buffer, size_t buffer_room, kamzirda_room *KAMZIRDA_ALONE room, uint32_t *KAMZIRDA_ALONE rule);

#ifdef __cplusplus
}
#endif

#endif
