"""Kamzirda's calls over ctypes: Base64 texts, public keys, SPIFFE IDs and updates.

The library is found beside this file in ../out/libkamzirda.so, at $KAMZIRDA_LIBRARY, or by the system.

    >>> import kamzirda
    >>> kamzirda.base64_decode(b"Zm9vYg==")
    b'foob'
    >>> for entry in kamzirda.update_entries(text, 64):
    ...     print(entry.id, entry.fingerprint.hex())
"""
import ctypes
import ctypes.util
import enum
import os
import pathlib
from ctypes import POINTER, Structure, byref, c_char_p, c_size_t, c_ubyte, c_uint32
from typing import NamedTuple


class Alphabet(enum.IntEnum):
    """The alphabets of Base64. STANDARD and URL are padded."""

    STANDARD = 0
    STANDARD_UNPADDED = 1
    URL = 2
    URL_UNPADDED = 3
    BCRYPT = 4
    PBKDF2 = 5
    CRYPT = 6
    SHA_CRYPT = 7


class Refused(ValueError):
    """The input breaks a rule: its number, as kamzirda.h has it, and its text."""

    def __init__(self, rule: int, text: str):
        super().__init__(text)
        self.rule = rule


class PublicKey(NamedTuple):
    """What is told of a public key's document."""

    algorithm: str
    fingerprint: bytes
    bits: bytes
    unused_bits: int


class SpiffeId(NamedTuple):
    """A SPIFFE ID's trust domain in lower case, and its path with its slash, or nothing."""

    trust_domain: str
    path: str


class Entry(NamedTuple):
    """An entry of an update: keys in DER, and the SHA-256 digest of the public one."""

    id: str
    private_key: bytes
    public_key: bytes
    fingerprint: bytes


class _Bits(Structure):
    _fields_ = [("offset", c_size_t), ("len", c_size_t), ("unused_bits", c_uint32)]


class _Id(Structure):
    _fields_ = [("domain_offset", c_size_t), ("domain_len", c_size_t), ("path_offset", c_size_t), ("path_len", c_size_t)]


class _Part(Structure):
    _fields_ = [("offset", c_size_t), ("len", c_size_t)]

    def of(self, buffer):
        return buffer.raw[self.offset : self.offset + self.len]


class _Counts(Structure):
    _fields_ = [("entries", c_size_t), ("bundles", c_size_t)]


class _Entry(Structure):
    _fields_ = [("id", _Part), ("private_key", _Part), ("public_key", _Part), ("fingerprint", c_ubyte * 32)]


class _Room(Structure):
    _fields_ = [("count", c_size_t), ("bytes", c_size_t)]


_IN = [c_char_p, c_size_t]
_CALLS = {
    "version": [],
    "rule_text": [c_uint32, *_IN, POINTER(c_size_t)],
    "base64_encoded_len": [c_uint32, *_IN, POINTER(c_size_t)],
    "base64_encode": [c_uint32, *_IN, *_IN, POINTER(c_size_t)],
    "base64_decode": [c_uint32, *_IN, *_IN, POINTER(c_size_t)],
    "spki_fingerprint": [*_IN, POINTER(c_ubyte * 32), POINTER(c_uint32)],
    "spki_oid": [*_IN, *_IN, POINTER(c_size_t), POINTER(c_uint32)],
    "spki_bits": [*_IN, POINTER(_Bits), POINTER(c_uint32)],
    "spiffe_id": [*_IN, POINTER(_Id), POINTER(c_uint32)],
    "update_check": [*_IN, c_size_t, POINTER(_Counts), POINTER(c_uint32)],
    "update_refusal": [*_IN, c_size_t, *_IN, POINTER(c_size_t)],
    "update_entries": [*_IN, c_size_t, POINTER(_Entry), c_size_t, *_IN, POINTER(_Room), POINTER(c_uint32)],
}


def _opened():
    beside = pathlib.Path(__file__).resolve().parent.parent / "out" / "libkamzirda.so"
    path = os.environ.get("KAMZIRDA_LIBRARY") or (str(beside) if beside.exists() else ctypes.util.find_library("kamzirda"))
    if path is None:
        raise ImportError("libkamzirda.so isn't built: bindings/build")
    library = ctypes.CDLL(path)
    for name, arguments in _CALLS.items():
        call = getattr(library, f"kamzirda_{name}")
        call.argtypes, call.restype = arguments, c_uint32
    return library


_library = _opened()


def version() -> int:
    """The library's version: 10000 times the major one, 100 times the minor one, and the patch."""
    return _library.kamzirda_version()


def rule_text(rule: int) -> str:
    """What the breach of a rule is called. ValueError: no rule has this number."""
    room, length = ctypes.create_string_buffer(64), c_size_t()
    _raise(_library.kamzirda_rule_text(rule, room, len(room), byref(length)), 0)
    return room.raw[: length.value].decode("ascii")


def _raise(status, rule):
    if status == 0:
        return
    if status == 1:
        raise Refused(rule, rule_text(rule))
    if status == 2:
        raise ValueError("no such number")
    if status == 5:
        raise MemoryError
    if status == 6:
        raise OverflowError("too large")
    raise BufferError("no room")


def base64_encode(data: bytes, alphabet: Alphabet = Alphabet.STANDARD) -> bytes:
    """The encoding of some bytes."""
    room, length = ctypes.create_string_buffer((len(data) + 2) // 3 * 4 + 1), c_size_t()
    _raise(_library.kamzirda_base64_encode(alphabet, data, len(data), room, len(room), byref(length)), 0)
    return room.raw[: length.value]


def base64_decode(text: bytes, alphabet: Alphabet = Alphabet.STANDARD) -> bytes:
    """The bytes whose canonical encoding a text is. Refused: it is none."""
    room, length = ctypes.create_string_buffer(len(text) // 4 * 3 + 3), c_size_t()
    _raise(_library.kamzirda_base64_decode(alphabet, text, len(text), room, len(room), byref(length)), 1)
    return room.raw[: length.value]


def public_key(document: bytes) -> PublicKey:
    """What a SubjectPublicKeyInfo in DER holds. Refused: the bytes are none, or more follows it."""
    rule, digest, bits, length = c_uint32(), (c_ubyte * 32)(), _Bits(), c_size_t()
    oid = ctypes.create_string_buffer(160)
    _raise(_library.kamzirda_spki_fingerprint(document, len(document), byref(digest), byref(rule)), rule.value)
    _raise(_library.kamzirda_spki_bits(document, len(document), byref(bits), byref(rule)), rule.value)
    _raise(_library.kamzirda_spki_oid(document, len(document), oid, len(oid), byref(length), byref(rule)), rule.value)
    octets = document[bits.offset : bits.offset + bits.len]
    return PublicKey(oid.raw[: length.value].decode("ascii"), bytes(digest), octets, bits.unused_bits)


def spiffe_id(text: str) -> SpiffeId:
    """The parts of a SPIFFE ID. Refused: the text is none."""
    data, rule, found = text.encode("utf-8", "surrogatepass"), c_uint32(), _Id()
    _raise(_library.kamzirda_spiffe_id(data, len(data), byref(found), byref(rule)), rule.value)
    domain = data[found.domain_offset : found.domain_offset + found.domain_len]
    return SpiffeId(domain.decode("ascii").lower(), data[found.path_offset : found.path_offset + found.path_len].decode("ascii"))


def update_counts(text: bytes, width: int) -> tuple[int, int]:
    """How many entries and bundles an update's text lists. Refused: it breaks a rule."""
    rule, counts = c_uint32(), _Counts()
    _raise(_library.kamzirda_update_check(text, len(text), width, byref(counts), byref(rule)), rule.value)
    return counts.entries, counts.bundles


def update_refusal(text: bytes, width: int) -> str | None:
    """The line of the first rule that an update's text breaks, as the programs print it."""
    line, length = ctypes.create_string_buffer(128), c_size_t()
    status = _library.kamzirda_update_refusal(text, len(text), width, line, len(line), byref(length))
    if status == 1:
        return line.raw[: length.value].decode("ascii")
    _raise(status, 0)
    return None


def update_entries(text: bytes, width: int) -> list[Entry]:
    """The entries of an update's text, in their order. Refused: it breaks a rule."""
    count, _ = update_counts(text, width)
    told, buffer = (_Entry * (count + 1))(), ctypes.create_string_buffer(len(text) + 1)
    room, rule = _Room(), c_uint32()
    status = _library.kamzirda_update_entries(text, len(text), width, told, count, buffer, len(text), byref(room), byref(rule))
    _raise(status, rule.value)
    return [
        Entry(e.id.of(buffer).decode("ascii"), e.private_key.of(buffer), e.public_key.of(buffer), bytes(e.fingerprint))
        for e in told[: room.count]
    ]
