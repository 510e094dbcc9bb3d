"""What the checks share: their command line, running a built program, DER, SPIFFE names, JSON key sets, the text."""
import argparse
import base64
import concurrent.futures
import contextlib
import json
import os
import pathlib
import random
import re
import subprocess
import sys

ROOT = pathlib.Path(__file__).resolve().parent.parent
SKIPPED = 77
LIMIT = 16_777_216


class Check:
    """A check's cases and differences. `close` prints the line that the runner reads, and gives the exit status."""

    def __init__(self, name, cases, about):
        words = argparse.ArgumentParser(prog=f"checks/{name}", description=about)
        words.add_argument("--seed", type=int, default=1)
        words.add_argument("--cases", type=int, default=cases, help=f"how many of each kind (else {cases})")
        words.add_argument("--programs", type=pathlib.Path, help="a folder of programs in place of those in crates/*/out")
        self.name, self.words = name, words.parse_args()
        self.cases, self.differences = 0, 0
        self.draw = random.Random(self.words.seed)
        print(f"{name}: seed {self.words.seed}, {self.words.cases} cases of each kind")

    def program(self, name):
        path = self.words.programs / name if self.words.programs else ROOT / "crates" / name / "out" / name
        if not os.access(path, os.X_OK):
            sys.exit(f"{self.name}: {path} isn't built: `rt ci`, or `rt run` in crates/{name}")
        return str(path.resolve())

    def compare(self, what, wanted, got):
        """Counts a case, and prints it where the answer isn't the wanted one."""
        self.cases += 1
        if wanted != got:
            self.differences += 1
            if self.differences <= 5:
                print(f"difference: {what}\n  wanted {short(wanted)}\n  got    {short(got)}")
        return wanted == got

    def close(self, word=""):
        print(f"{self.name}: {self.cases} cases, {self.differences} differences{', ' + word if word else ''}")
        return 1 if self.differences else 0

    def skip(self, word):
        print(f"{self.name}: skipped, {word}")
        return SKIPPED


def short(value, length=600):
    text = repr(value)
    return text if len(text) <= length else f"{text[:length]}.. ({len(text)} characters)"


def run(words, text=b"", **more):
    """Runs a program, and gives its status, its standard output and its standard error."""
    ran = subprocess.run(words, input=text, capture_output=True, timeout=120, **more)
    return ran.returncode, ran.stdout, ran.stderr


def side_by_side(function, items):
    """The function's answers in the order of the items, some of them at once."""
    with concurrent.futures.ThreadPoolExecutor(4) as pool:
        return list(pool.map(function, items))


# DER in the profile of docs/FORMATS.md.


class Malformed(Exception):
    pass


def tlv(tag, content):
    size = len(content)
    if size < 128:
        return bytes([tag, size]) + content
    length = size.to_bytes((size.bit_length() + 7) // 8, "big")
    return bytes([tag, 0x80 | len(length)]) + length + content


def read_value(data, at=0, tag=None):
    """The tag, the content and the place behind the value at a place. Definite, shortest lengths of at most four bytes."""
    if at + 2 > len(data):
        raise Malformed
    found, size, at = data[at], data[at + 1], at + 2
    if found == 0 or found & 31 == 31 or (tag is not None and found != tag):
        raise Malformed
    if size >= 128:
        count = size & 127
        if not 1 <= count <= 4 or at + count > len(data):
            raise Malformed
        size, at = int.from_bytes(data[at : at + count], "big"), at + count
        if size < 128 or size < 1 << 8 * (count - 1):
            raise Malformed
    if at + size > len(data):
        raise Malformed
    return found, data[at : at + size], at + size


def values(data):
    """The values that fill some bytes, each as tag, content and its whole encoding."""
    found, at = [], 0
    while at < len(data):
        tag, content, behind = read_value(data, at)
        found.append((tag, content, data[at:behind]))
        at = behind
    return found


def only(data, tag):
    found, content, behind = read_value(data, 0, tag)
    if behind != len(data):
        raise Malformed
    return content


def object_identifier(content):
    """The dotted decimals of an object identifier of at most 39 bytes, each subidentifier below 2^32 and shortest."""
    numbers, number, first = [], 0, True
    if not 1 <= len(content) <= 39 or content[-1] & 128:
        raise Malformed
    for byte in content:
        if first and byte == 0x80:
            raise Malformed
        number, first = number << 7 | byte & 127, not byte & 128
        if first:
            if number >= 1 << 32:
                raise Malformed
            numbers, number = numbers + [number], 0
    top = min(numbers[0] // 40, 2)
    return ".".join(str(it) for it in [top, numbers[0] - 40 * top] + numbers[1:])


def algorithm_identifier(content):
    parts = values(content)
    if not 1 <= len(parts) <= 2 or parts[0][0] != 6:
        raise Malformed
    return object_identifier(parts[0][1])


def bit_string(content):
    """The content of a bit string: 0 to 7 unused bits, and none where it is empty. Their values are free (X.690, 8.6.2)."""
    if not content or content[0] > 7 or (content[0] and len(content) == 1):
        raise Malformed
    return content


def private_key(content):
    """The algorithm's encoding and the public key's bits or None, of the content of a PrivateKeyInfo."""
    parts = values(content)
    if len(parts) < 3 or [it[0] for it in parts[:3]] != [2, 0x30, 4] or parts[0][1] not in (b"\0", b"\1"):
        raise Malformed
    algorithm_identifier(parts[1][1])
    rest, public = parts[3:], None
    if rest and rest[0][0] == 0xA0:
        rest = rest[1:]
    if rest and rest[0][0] == 0x81:
        public, rest = bit_string(rest[0][1]), rest[1:]
    for tag, inner, _ in rest:
        if not 0xA0 <= tag <= 0xBE or len(values(inner)) != 1:
            raise Malformed
    if (public is not None) != (parts[0][1] == b"\1"):
        raise Malformed
    return parts[1][2], public


def public_key(content):
    """The algorithm's encoding, its dotted decimals and the bits of the content of a SubjectPublicKeyInfo."""
    parts = values(content)
    if [it[0] for it in parts] != [0x30, 3]:
        raise Malformed
    return parts[0][2], algorithm_identifier(parts[0][1]), bit_string(parts[1][1])


def text_of(content):
    try:
        return content.decode("utf-8")
    except UnicodeDecodeError:
        raise Malformed from None


# Names of SPIFFE. A refusal is a Broken with the rule's words.


class Broken(Exception):
    pass


NAME_BYTE = re.compile(r"[A-Za-z0-9._-]")


def named_domain(name):
    """A trust domain in lower case, of a name in letters of any case."""
    if not name:
        raise Broken("trust domain missing")
    if len(name.encode()) > 255:
        raise Broken("trust domain too long")
    if not all(NAME_BYTE.fullmatch(it) for it in name):
        raise Broken("bad trust domain character")
    return name.lower()


def check_path(path):
    """A path is empty, or segments that each stand behind a slash; the first broken rule from the left."""
    segments = path.split("/")[1:]
    for place, segment in enumerate(segments):
        if not segment:
            raise Broken("trailing slash" if place == len(segments) - 1 else "empty segment")
        if segment in (".", ".."):
            raise Broken("dot segment")
        if not all(NAME_BYTE.fullmatch(it) for it in segment):
            raise Broken("bad path character")


def spiffe_id(text):
    """The trust domain, in lower case, and the path of a SPIFFE ID."""
    if not text:
        raise Broken("empty")
    scheme, found, rest = text.partition("://")
    if not found or scheme.encode().lower() != b"spiffe":
        raise Broken("wrong scheme")
    domain, slash, path = rest.partition("/")
    domain = named_domain(domain)
    check_path(slash + path)
    return domain, slash + path


def trust_domain(text):
    """The trust domain that a text names: as it is, or by the front of an id."""
    if not text:
        raise Broken("trust domain missing")
    scheme, found, rest = text.partition("://")
    if found:
        if scheme.encode().lower() != b"spiffe":
            raise Broken("wrong scheme")
        text = rest.partition("/")[0]
    elif ":/" in text:
        raise Broken("wrong scheme")
    return named_domain(text)


# JSON in the profile of docs/FORMATS.md, over Python's own reader.


class NotWhole:
    """A number that isn't a whole number of 64 bits, or is -0."""


def whole(text):
    return NotWhole() if text == "-0" or not -(1 << 63) <= int(text) < 1 << 64 else int(text)


def fraction(text):
    if float(text) in (float("inf"), float("-inf")):
        raise Broken("invalid JSON")
    return NotWhole()


def integer(text):
    """A whole number, or one that a float holds."""
    return whole(text) if len(text) < 30 else fraction(text)


def no_constant(_):
    raise Broken("invalid JSON")


def depth(text):
    """How deep brackets nest outside of strings."""
    deepest = now = 0
    for mark in re.sub(r'"(?:[^"\\]|\\.)*"', "", text, flags=re.S):
        now += (mark in "[{") - (mark in "]}")
        deepest = max(deepest, now)
    return deepest


def has(value, wanted):
    """Whether a value of JSON holds, at any depth, one of which the function is true; also in replaced members."""
    if wanted(value):
        return True
    inner = value.values() if isinstance(value, dict) else value if isinstance(value, list) else []
    return any(has(it, wanted) for it in inner)


def is_lone(text):
    return isinstance(text, str) and any(0xD800 <= ord(it) <= 0xDFFF for it in text)


def read_json(data):
    """The value of some bytes, or the broken rule. A lone surrogate is no text, also in a member that is replaced."""

    def members(pairs):
        if any(is_lone(name) or has(value, is_lone) for name, value in pairs):
            raise Broken("invalid JSON")
        return dict(pairs)

    try:
        text = data.decode("utf-8")
        if text.startswith("\ufeff") or depth(text) > 127:
            raise Broken("invalid JSON")
        value = json.loads(
            text, object_pairs_hook=members, parse_int=integer, parse_float=fraction, parse_constant=no_constant
        )
    except (UnicodeDecodeError, ValueError, RecursionError):
        raise Broken("invalid JSON") from None
    if has(value, is_lone):
        raise Broken("invalid JSON")
    if has(value, lambda it: isinstance(it, NotWhole)):
        raise Broken("number not allowed")
    return value


def key_ids(data):
    """The key IDs of a key set, ascending, or the broken rule."""
    value = read_json(data)
    keys = value.get("keys") if isinstance(value, dict) else None
    if not isinstance(keys, list):
        raise Broken("no keys array")
    if not all(isinstance(it, dict) and isinstance(it.get("kid"), str) for it in keys):
        raise Broken("missing key ID")
    return sorted({it["kid"].encode() for it in keys})


def told(data):
    """A reason or a key ID as a report writes it."""
    return "".join(chr(it) if 0x21 <= it <= 0x7E and it != 0x25 else f"%{it:02X}" for it in data)


# The text.


def in_lines(document, width, endings=(b"\n",), draw=None):
    text = base64.b64encode(document)
    pieces = [text[at : at + width] for at in range(0, len(text), width)]
    chosen = [draw.choice(endings) if draw else endings[0] for _ in pieces[1:]] + [b""]
    return b"".join(piece + ending for piece, ending in zip(pieces, chosen))


def bytes_of_text(text, width):
    """The bytes of a text in lines of a width, or the broken rule: every line but the last has exactly the width."""
    if width < 4 or not text:
        raise Broken("invalid Base64 length")
    lines = re.split(rb"\r\n|\r|\n", text)
    if any(len(it) != width for it in lines[:-1]) or not 1 <= len(lines[-1]) <= width:
        raise Broken("invalid Base64 encoding")
    return canonical(b"".join(lines))


def canonical(joined):
    with contextlib.suppress(ValueError):
        data = base64.b64decode(joined, validate=True)
        if base64.b64encode(data) == joined:
            return data
    raise Broken("invalid Base64 encoding")
