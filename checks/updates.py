"""Updates of docs/FORMATS.md: a reader of texts, a writer of random valid ones, and ways to break one."""
import base64
import dataclasses
import hashlib

from common import (
    LIMIT, Broken, Malformed, bit_string, bytes_of_text, in_lines, key_ids, object_identifier, only, private_key,
    public_key, read_value, spiffe_id, text_of, tlv, told, trust_domain, values,
)

ALGORITHMS = [bytes.fromhex(it) for it in (
    "300506032B6570", "300706032B65700500", "300A06082A8648CE3D040302", "300D06092A864886F70D0101010500",
    "301306072A8648CE3D020106082A8648CE3D030107", "30060604551D0501",
)]


@dataclasses.dataclass
class State:
    """What an accepted update says: identities as id, OID and fingerprint, and the key IDs of each trust domain."""

    reason: bytes | None = None
    identities: list = dataclasses.field(default_factory=list)
    bundles: dict = dataclasses.field(default_factory=dict)

    def report(self):
        lines = ["revision 1"] + ([f"withdrawn {told(self.reason)}"] if self.reason is not None else [])
        lines += [f"identity {id} {oid} {print}" for id, oid, print in self.identities]
        lines += [f"bundle {self.bundle(name)}" for name in sorted(self.bundles)]
        return "".join(f"{it}\n" for it in lines).encode()

    def bundle(self, name):
        keys = self.bundles[name]
        return " ".join([name, str(len(keys))] + [told(it) for it in keys])

    def svid(self):
        if self.identities:
            return self.identities[0][0]
        return "none" if self.reason is None else f"withdrawn {told(self.reason)}"


def fields_of(data):
    """The identities, the bundles and the reason of a document, and the place behind it."""
    _, content, behind = read_value(data, 0, 0x30)
    parts = values(content)
    if [it[0] for it in parts] not in ([0x30, 0x30], [0x30, 0x30, 0x80]):
        raise Malformed
    identities, bundles = [], []
    for tag, inner, _ in values(parts[0][1]):
        fields = values(inner)
        if tag != 0x30 or [it[0] for it in fields] != [12, 0x30, 0x30]:
            raise Malformed
        identities.append((text_of(fields[0][1]), private_key(fields[1][1]), public_key(fields[2][1]), fields[2][2]))
    for tag, inner, _ in values(parts[1][1]):
        fields = values(inner)
        if tag != 0x30 or [it[0] for it in fields] != [12, 4]:
            raise Malformed
        bundles.append((text_of(fields[0][1]), fields[1][1]))
    reason = parts[2][1] if len(parts) == 3 else None
    if reason is not None and not 1 <= len(reason) <= 255:
        raise Malformed
    text_of(reason or b"")
    return identities, bundles, reason, behind


def state_of(identities, bundles, reason):
    if not identities and reason is None:
        raise Broken("document: no identity")
    if identities and reason is not None:
        raise Broken("document: withdrawal with identities")
    state, domains = State(reason), []
    for place, (text, (algorithm, held), (other, oid, bits), encoding) in enumerate(identities):
        try:
            domain, path = spiffe_id(text)
        except Broken as rule:
            raise Broken(f"entry {place}: subject: {rule}") from None
        if algorithm != other:
            raise Broken(f"entry {place}: algorithms differ")
        if held not in (None, bits):
            raise Broken(f"entry {place}: public keys differ")
        domains.append(domain)
        fingerprint = base64.b64encode(hashlib.sha256(encoding).digest()).decode()
        state.identities.append((f"spiffe://{domain}{path}", oid, fingerprint))
    for place, (name, keys) in enumerate(bundles):
        rule = "domain"
        try:
            domain, rule = trust_domain(name), "authorities"
            state.bundles[domain] = key_ids(keys)
        except Broken as why:
            raise Broken(f"bundle {place}: {rule}: {why}") from None
    for place, domain in enumerate(domains):
        if domain not in state.bundles:
            raise Broken(f"entry {place}: no bundle")
    return state


def read_text(text, width):
    """The state that a text writes, or a Broken with the words behind `refused: `."""
    try:
        data = bytes_of_text(text, width)
    except Broken as rule:
        raise Broken(f"text: {rule}") from None
    try:
        identities, bundles, reason, behind = fields_of(data)
    except Malformed:
        raise Broken("document: malformed") from None
    if behind < len(data):
        raise Broken(f"document: trailing data: decoded {behind}, remaining {len(data) - behind}")
    return state_of(identities, bundles, reason)


def shown(text, width):
    """The status and the output that `show` owes."""
    if len(text) > LIMIT:
        return 6, b""
    try:
        return 0, read_text(text, width).report()
    except Broken as rule:
        return 1, f"refused: {rule}\n".encode()


# A writer of random updates, and of broken ones.


def random_name(draw, pieces=("d0", "d1", "Example", "a-b", "x_y", "0")):
    return ".".join(draw.choice(pieces) for _ in range(draw.randint(1, 3))) + draw.choice(["", ".org"])


def random_set(draw):
    ids = ["k", "", "\u00e9", "a b", "%", "\\u0000", "\\ud83d\\ude00", "~!", "k2", "\\\""]
    keys = ['{"kid":"%s","n":%s}' % (draw.choice(ids), draw.choice(["0", "-7", '"t"', "[{}]"])) for _ in range(draw.randint(0, 4))]
    return draw.choice(["", " ", "\n"]).join(['{"keys":[', ",".join(keys), "]}"]).encode()


def random_private(draw, algorithm, bits):
    held = draw.random() < 0.4
    tail = draw.choice([b"", b"", tlv(0xA0, b""), tlv(0xA0, draw.randbytes(5))]) + (tlv(0x81, bits) if held else b"")
    for _ in range(draw.choice([0, 0, 0, 1, 2])):
        tail += tlv(draw.randint(0xA1, 0xBE), tlv(draw.choice([2, 4, 5, 0x30]), draw.randbytes(draw.choice([0, 1, 130]))))
    return tlv(0x30, bytes([2, 1, held]) + algorithm + tlv(4, draw.randbytes(draw.choice([0, 1, 34, 127, 128, 300]))) + tail)


def random_bits(draw):
    """The content of a bit string, the unused bits of its last byte 0."""
    data = bytearray(draw.randbytes(draw.choice([0, 1, 32, 65, 270])))
    unused = draw.randint(0, 7) if data and draw.random() < 0.2 else 0
    if data:
        data[-1] &= 0xFF << unused & 0xFF
    return bit_string(bytes([unused]) + bytes(data))


class Parts:
    """An update whose parts can be broken one by one: identities and bundles as lists of encoded fields."""

    def __init__(self, draw):
        names = [random_name(draw) for _ in range(draw.randint(1, 3))]
        self.identities, self.reason = [], None
        self.bundles = [[tlv(12, draw.choice(["", "spiffe://"]).encode() + it.encode()), tlv(4, random_set(draw))] for it in names]
        if draw.random() < 0.15:
            self.reason = draw.choice([b"gone", b"%", b" ", "\u00e9".encode(), b"r" * 255, draw.randbytes(3).hex().encode()])
            self.bundles = draw.choice([self.bundles, []])
            return
        for _ in range(draw.randint(1, 4)):
            algorithm, bits = draw.choice(ALGORITHMS), random_bits(draw)
            id = draw.choice(["spiffe", "spiffe", "SPIFFE", "sPiFfE"]) + "://" + draw.choice(names)
            id += draw.choice(["", "/a", "/workload/b-1", "/A.b_c/...", "/x" * 40])
            self.identities.append([tlv(12, id.encode()), random_private(draw, algorithm, bits), tlv(0x30, algorithm + tlv(3, bits))])

    def document(self):
        identities = b"".join(tlv(0x30, b"".join(it)) for it in self.identities)
        bundles = b"".join(tlv(0x30, b"".join(it)) for it in self.bundles)
        return tlv(0x30, tlv(0x30, identities) + tlv(0x30, bundles) + (b"" if self.reason is None else tlv(0x80, self.reason)))


BAD_IDS = ["", "spiffe", "spiffe:/d", "spiffe://", "spiffe:///a", "http://d0/b", "spiffe://d0//", "spiffe://d0/a/", "spiffe://d0/../a",
           "spiffe://d0/.", "spiffe://d0/a b", "spiffe://d0/\u00e9", "spiffe://d:1/a", "spiffe://" + "a" * 256, "spiffe://" + "a" * 255 + "/p",
           "spiffe://d0?x", " spiffe://d0", "spiffe://d0/a//b/./", "spiffe://D\u212a/a", "spi\u017fffe://d0"]
BAD_SETS = [b"", b"{}", b"[]", b'{"keys":1}', b'{"keys":[{}]}', b'{"keys":[1]}', b'{"keys":[1.5]}', b'{"keys":[1e400]}', b'{"keys":[-0]}',
            b'{"keys":[{"kid":1}]}', b'{"keys":[],"keys":{}}', b'{"keys":[]} x', b'{"keys":["\\ud800"]}', b'{"keys":[{"kid":"\xff"}]}',
            b'{"keys":[18446744073709551616]}', b'{"keys":[{"kid":"a"},{"kid":"a"}],"n":-9223372036854775809}', b"\xef\xbb\xbf{}"]


def break_part(draw, parts):
    """Turns one field of an update into another, mostly an unlawful one."""
    which = draw.randrange(11)
    entry = draw.choice(parts.identities) if parts.identities else None
    bundle = draw.choice(parts.bundles) if parts.bundles else None
    if which < 2 and entry:
        entry[0] = tlv(draw.choice([12, 12, 12, 19]), draw.choice(BAD_IDS).encode())
    elif which == 2 and entry:
        entry[1] = draw.choice([b"", tlv(0x30, b""), entry[2], entry[1][:-1], tlv(0x30, only(entry[1], 0x30) + tlv(0xA0, b""))])
    elif which == 3 and entry:
        algorithm, bits = draw.choice(ALGORITHMS), random_bits(draw)
        entry[draw.choice([1, 2])] = draw.choice([random_private(draw, algorithm, bits), tlv(0x30, algorithm + tlv(3, bits))])
    elif which == 4 and entry:
        entry[2] = tlv(0x30, draw.choice(ALGORITHMS) + tlv(3, draw.choice([b"", b"\7\0", b"\1\1", b"\x08\0", b"\0"])))
    elif which == 5 and bundle:
        bundle[0] = tlv(12, draw.choice([b"", b"a/b", b"a" * 256, b"\x80", b"a:/b", b"http://a", b"spiffe://a/b/../", b"UP.org"]))
    elif which in (6, 7) and bundle:
        bundle[1] = tlv(4, draw.choice(BAD_SETS + [b'{"keys":' + b"[" * 126 + b"]" * 126 + b"}", b"[" * 128 + b"]" * 128]))
    elif which == 8 and bundle:
        parts.bundles.remove(bundle)
    elif which == 9:
        parts.reason = draw.choice([b"", b"gone", b"r" * 256, b"\xff", None])
    else:
        parts.identities = draw.choice([[], parts.identities * 2])


def random_text(draw, width):
    """A text that is mostly a valid update or one broken in one place."""
    kind, parts = draw.randrange(20), Parts(draw)
    endings = draw.choice([(b"\n",), (b"\r",), (b"\r\n",), (b"\n", b"\r", b"\r\n")])
    if kind == 0:
        return in_lines(draw.randbytes(draw.randint(0, 300)), width, endings, draw)
    if kind < 9:
        break_part(draw, parts)
    if kind == 9:
        break_part(draw, parts)
    document = bytearray(parts.document())
    if kind in (10, 11, 12):
        document[draw.randrange(len(document))] ^= 1 << draw.randrange(8)
    elif kind == 13:
        document += draw.randbytes(draw.randint(1, 9))
    text = bytearray(in_lines(bytes(document), width, endings, draw))
    at = draw.randrange(len(text))
    if kind == 14:
        text[at] = draw.choice(b"A/+=-\r\n \x00\xff")
    elif kind == 15:
        del text[at]
    elif kind == 16:
        text[at:at] = draw.choice([b"\n", b"\r", b"=", b"A", b"\r\n"])
    elif kind == 17:
        del text[at:]
    elif kind == 18:
        text += draw.choice([b"\n", b"=", b"A", b"\r"])
    return bytes(text)
