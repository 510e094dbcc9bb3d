//! Rows of RFC 4648, RFC 8410 and docs/FORMATS.md.
use kamzirda::*;

#[test]
fn base64_both_ways() {
    for (alphabet, bytes, text) in [
        (Alphabet::Standard, &b"foob"[..], "Zm9vYg=="),
        (Alphabet::StandardUnpadded, b"foob", "Zm9vYg"),
        (Alphabet::Url, b"\xfb\xff", "-_8="),
        (Alphabet::Standard, b"", ""),
    ] {
        assert_eq!(base64_encode(alphabet, bytes).unwrap(), text);
        assert_eq!(base64_decode(alphabet, text.as_bytes()).unwrap(), bytes);
    }
    assert_eq!(base64_decode(Alphabet::Standard, b"Zm9vYh==").unwrap_err().to_string(), "invalid Base64 encoding");
}

#[test]
fn public_key_of_rfc_8410() {
    let document = base64_decode(Alphabet::Standard, b"MCowBQYDK2VwAyEAGb9ECWmEzf6FQbrBZ9w7lshQhqowtrbLDFw4rXAxZuE=").unwrap();
    let key = public_key(&document).unwrap();
    assert_eq!((key.algorithm.as_str(), key.bits, key.unused_bits), ("1.3.101.112", &document[12..], 0));
    assert_eq!(base64_encode(Alphabet::Standard, &key.fingerprint).unwrap(), "oekVYFTgT6yJmunydRMs3Ael28TqLCrTof/G4NJTaB8=");
    assert_eq!(public_key(&document[..43]), Err(Error::Refused(3)));
}

#[test]
fn ids_and_updates() {
    assert_eq!(spiffe_id("spiffe://Example.org/a").unwrap(), ("Example.org", "/a"));
    assert_eq!(spiffe_id("spiffe://x//a"), Err(Error::Refused(26)));
    let text = std::fs::read("../../examples/update.txt").unwrap();
    let entries = update_entries(&text, 64).unwrap();
    assert_eq!(entries.len(), 1);
    assert_eq!(public_key(&entries[0].public_key).unwrap().fingerprint, entries[0].fingerprint);
    assert_eq!(update_entries(&text, 63).err(), Some(Error::Refused(1)));
    assert_eq!(version(), 100);
}
