//! Base64 texts, public keys, SPIFFE IDs and updates, over the proved library `libkamzirda.a`.
//!
//! A slice is never null and outputs never overlap inputs in safe Rust, so what the C header asks of a caller holds here.
//!
//! ```
//! use kamzirda::{base64_decode, Alphabet};
//! assert_eq!(base64_decode(Alphabet::Standard, b"Zm9vYg==").unwrap(), b"foob");
//! ```
mod raw;

use std::fmt;

/// The alphabets of Base64. `Standard` and `Url` are padded.
#[derive(Clone, Copy, Debug, PartialEq, Eq)]
#[repr(u32)]
pub enum Alphabet {
    Standard = 0,
    StandardUnpadded = 1,
    Url = 2,
    UrlUnpadded = 3,
    Bcrypt = 4,
    Pbkdf2 = 5,
    Crypt = 6,
    ShaCrypt = 7,
}

/// Why a call has no answer.
#[derive(Clone, Debug, PartialEq, Eq)]
pub enum Error {
    /// The input breaks this rule, by its number in kamzirda.h.
    Refused(u32),
    OutOfMemory,
    /// Another status, which no call of this crate should meet.
    Status(u32),
}

impl fmt::Display for Error {
    fn fmt(&self, f: &mut fmt::Formatter<'_>) -> fmt::Result {
        match self {
            Error::Refused(rule) => f.write_str(&rule_text(*rule)),
            Error::OutOfMemory => f.write_str("out of memory"),
            Error::Status(status) => write!(f, "status {status}"),
        }
    }
}

impl std::error::Error for Error {}

fn answer(status: u32, rule: u32) -> Result<(), Error> {
    match status {
        0 => Ok(()),
        1 => Err(Error::Refused(rule)),
        5 => Err(Error::OutOfMemory),
        other => Err(Error::Status(other)),
    }
}

/// The library's version: 10000 times the major one, 100 times the minor one, and the patch.
pub fn version() -> u32 {
    unsafe { raw::kamzirda_version() }
}

/// What the breach of a rule is called; nothing for a number that is no rule.
pub fn rule_text(rule: u32) -> String {
    let (mut text, mut len) = ([0; 64], 0);
    let status = unsafe { raw::kamzirda_rule_text(rule, text.as_mut_ptr(), text.len(), &mut len) };
    String::from_utf8_lossy(if status == 0 { &text[..len] } else { &[] }).into_owned()
}

/// The encoding of some bytes.
pub fn base64_encode(alphabet: Alphabet, bytes: &[u8]) -> Result<String, Error> {
    let (mut text, mut len) = (vec![0; bytes.len().div_ceil(3) * 4], 0);
    let status = unsafe { raw::kamzirda_base64_encode(alphabet as u32, bytes.as_ptr(), bytes.len(), text.as_mut_ptr(), text.len(), &mut len) };
    answer(status, 0)?;
    text.truncate(len);
    Ok(String::from_utf8(text).expect("ASCII"))
}

/// The bytes whose canonical encoding a text is.
pub fn base64_decode(alphabet: Alphabet, text: &[u8]) -> Result<Vec<u8>, Error> {
    let (mut bytes, mut len) = (vec![0; text.len() / 4 * 3 + 3], 0);
    let status = unsafe { raw::kamzirda_base64_decode(alphabet as u32, text.as_ptr(), text.len(), bytes.as_mut_ptr(), bytes.len(), &mut len) };
    answer(status, 1)?;
    bytes.truncate(len);
    Ok(bytes)
}

/// What a SubjectPublicKeyInfo in DER holds.
#[derive(Clone, Debug, PartialEq, Eq)]
pub struct PublicKey<'a> {
    /// The algorithm's object identifier in dotted decimals.
    pub algorithm: String,
    /// The SHA-256 digest of the document.
    pub fingerprint: [u8; 32],
    /// The octets of the key.
    pub bits: &'a [u8],
    /// How many bits of the last octet are unused.
    pub unused_bits: u32,
}

/// Reads a public key's document.
pub fn public_key(document: &[u8]) -> Result<PublicKey<'_>, Error> {
    let (mut digest, mut bits, mut oid, mut len, mut rule) = ([0; 32], raw::Bits::default(), [0; 160], 0, 0);
    let (at, n) = (document.as_ptr(), document.len());
    let status = unsafe { raw::kamzirda_spki_fingerprint(at, n, &mut digest, &mut rule) };
    answer(status, rule)?;
    let status = unsafe { raw::kamzirda_spki_bits(at, n, &mut bits, &mut rule) };
    answer(status, rule)?;
    let status = unsafe { raw::kamzirda_spki_oid(at, n, oid.as_mut_ptr(), oid.len(), &mut len, &mut rule) };
    answer(status, rule)?;
    Ok(PublicKey {
        algorithm: String::from_utf8_lossy(&oid[..len]).into_owned(),
        fingerprint: digest,
        bits: &document[bits.offset..bits.offset + bits.len],
        unused_bits: bits.unused_bits,
    })
}

/// The trust domain of a SPIFFE ID, as it is written, and its path with its slash, or nothing.
pub fn spiffe_id(text: &str) -> Result<(&str, &str), Error> {
    let (mut id, mut rule) = (raw::Id::default(), 0);
    let status = unsafe { raw::kamzirda_spiffe_id(text.as_ptr(), text.len(), &mut id, &mut rule) };
    answer(status, rule)?;
    Ok((&text[id.domain_offset..id.path_offset], &text[id.path_offset..id.path_offset + id.path_len]))
}

/// An entry of an update. Keys are in DER.
#[derive(Clone, PartialEq, Eq)]
pub struct Entry {
    pub id: String,
    pub private_key: Vec<u8>,
    pub public_key: Vec<u8>,
    pub fingerprint: [u8; 32],
}

/// The entries of an update's text in lines of a width.
pub fn update_entries(text: &[u8], width: usize) -> Result<Vec<Entry>, Error> {
    let (mut counts, mut room, mut rule) = (raw::Counts::default(), raw::Room::default(), 0);
    let status = unsafe { raw::kamzirda_update_check(text.as_ptr(), text.len(), width, &mut counts, &mut rule) };
    answer(status, rule)?;
    let (mut entries, mut buffer) = (vec![raw::Entry::default(); counts.entries], vec![0; text.len()]);
    let status = unsafe {
        raw::kamzirda_update_entries(
            text.as_ptr(),
            text.len(),
            width,
            entries.as_mut_ptr(),
            entries.len(),
            buffer.as_mut_ptr(),
            buffer.len(),
            &mut room,
            &mut rule,
        )
    };
    answer(status, rule)?;
    let part = |part: raw::Part| buffer[part.offset..part.offset + part.len].to_vec();
    Ok(entries[..room.count]
        .iter()
        .map(|entry| Entry {
            id: String::from_utf8_lossy(&part(entry.id)).into_owned(),
            private_key: part(entry.private_key),
            public_key: part(entry.public_key),
            fingerprint: entry.fingerprint,
        })
        .collect())
}
