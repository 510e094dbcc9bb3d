"""The inputs of the measurements: texts of updates of about so many bytes, in lines of 64."""
import pathlib
import sys

sys.path.insert(0, str(pathlib.Path(__file__).resolve().parent.parent / "checks"))
from common import in_lines, tlv  # noqa: E402

ED25519 = bytes.fromhex("300506032B6570")
RSA = bytes.fromhex("300D06092A864886F70D0101010500")


def number(n, size):
    return n.to_bytes(4, "big") * (size // 4)


def identity(n, algorithm, octets, bits, domain=b"d"):
    private = tlv(0x30, tlv(2, b"\0") + algorithm + tlv(4, octets))
    return tlv(0x30, tlv(12, b"spiffe://%s/w/%d" % (domain, n)) + private + tlv(0x30, algorithm + tlv(3, b"\0" + bits)))


def bundle(domain, keys):
    return tlv(0x30, tlv(12, domain) + tlv(4, keys))


def key(n, modulus):
    return b'{"kty":"RSA","use":"jwt-svid","kid":"key-%d","e":"AQAB","n":"%s"}' % (n, b"A%05d" % n * (modulus // 6))


def key_set(count, modulus):
    return b'{"keys":[' + b",".join(key(n, modulus) for n in range(count)) + b"]}"


def update(identities, bundles):
    return in_lines(tlv(0x30, tlv(0x30, b"".join(identities)) + tlv(0x30, b"".join(bundles))), 64)


def small_identities(size):
    """Ed25519 keys in identities of 121 bytes, one bundle."""
    count = size * 64 * 3 // (65 * 4) // 121
    return update([identity(n, ED25519, b"\4\x20" + number(n, 32), number(n, 32)) for n in range(count)], [bundle(b"d", key_set(1, 342))])


def mixed_entries(size):
    """RSA keys of 2048 bits and Ed25519 keys by turns, over bundles of two keys each."""
    count = size * 64 * 3 // (65 * 4) // 1830
    identities, bundles = [], []
    for n in range(count):
        domain = b"d%d.example.org" % (n % 1000)
        identities.append(identity(2 * n, RSA, number(n, 1192), number(n, 270), domain))
        identities.append(identity(2 * n + 1, ED25519, b"\4\x20" + number(n, 32), number(n, 32), domain))
        if n < 1000:
            bundles.append(bundle(domain, key_set(2, 342)))
    return update(identities, bundles)


def big_key_sets(size):
    """One identity, and bundles of 100 RSA keys each."""
    keys = key_set(100, 342)
    count = max(1, size * 64 * 3 // (65 * 4) // (len(keys) + 24))
    bundles = [bundle(b"d", key_set(1, 342))] + [bundle(b"d%d.example.org" % n, keys) for n in range(count)]
    return update([identity(1, ED25519, b"k", number(1, 32))], bundles)


def one_key_set(size):
    """One identity, and one bundle of all the keys there is room for."""
    count = size * 64 * 3 // (65 * 4) // (len(key(10000, 342)) + 1)
    return update([identity(1, ED25519, b"k", number(1, 32))], [bundle(b"d", key_set(count, 342))])


KINDS = {"small identities": small_identities, "mixed entries": mixed_entries, "big key sets": big_key_sets, "one key set": one_key_set}
