"""Tests of kamzirda.py against Python's own base64 and hashlib. Run: python3 -m unittest, in this folder."""
import base64
import binascii
import hashlib
import pathlib
import random
import unittest

import kamzirda
from kamzirda import Alphabet, Refused

ROOT = pathlib.Path(__file__).resolve().parent.parent.parent
TEXT = (ROOT / "examples" / "update.txt").read_bytes()
KEY = base64.b64decode("MCowBQYDK2VwAyEAGb9ECWmEzf6FQbrBZ9w7lshQhqowtrbLDFw4rXAxZuE=")


def decoded(text):
    """Strictly and canonically by Python, or None."""
    try:
        data = base64.b64decode(text, validate=True)
    except binascii.Error:
        return None
    return data if base64.b64encode(data) == text else None


def answered(call, *words):
    try:
        return call(*words)
    except Refused:
        return None


class Calls(unittest.TestCase):
    def test_base64_is_python_s(self):
        draw = random.Random(1)
        for _ in range(3000):
            data = draw.randbytes(draw.randrange(80))
            self.assertEqual(kamzirda.base64_encode(data), base64.b64encode(data))
            self.assertEqual(kamzirda.base64_encode(data, Alphabet.URL), base64.urlsafe_b64encode(data))
            text = bytearray(base64.b64encode(data))
            if text:
                text[draw.randrange(len(text))] = draw.choice(b"AB+/=-_ \n.")
            self.assertEqual(answered(kamzirda.base64_decode, bytes(text)), decoded(bytes(text)))

    def test_public_key(self):
        key = kamzirda.public_key(KEY)
        self.assertEqual(key, ("1.3.101.112", hashlib.sha256(KEY).digest(), KEY[12:], 0))
        for document, rule in [(KEY[:-1], 3), (KEY + b"\0", 4), (b"", 3)]:
            with self.assertRaises(Refused) as refused:
                kamzirda.public_key(document)
            self.assertEqual(refused.exception.rule, rule)

    def test_spiffe_id(self):
        self.assertEqual(kamzirda.spiffe_id("spiffe://Example.org/a"), ("example.org", "/a"))
        for text, rule in [("", "empty"), ("http://x", "wrong scheme"), ("spiffe://x/", "trailing slash"), ("spiffe://ä", "bad trust domain character")]:
            with self.assertRaisesRegex(Refused, rule):
                kamzirda.spiffe_id(text)

    def test_update(self):
        self.assertEqual(kamzirda.update_counts(TEXT, 64), (1, 1))
        document = base64.b64decode(TEXT.replace(b"\n", b""))
        for entry in kamzirda.update_entries(TEXT, 64):
            self.assertIn(entry.id.encode(), document)
            self.assertIn(entry.public_key, document)
            self.assertEqual(entry.fingerprint, hashlib.sha256(entry.public_key).digest())
        self.assertIsNone(kamzirda.update_refusal(TEXT, 64))
        self.assertEqual(kamzirda.update_refusal(TEXT, 63), "refused: text: invalid Base64 encoding\n")
        with self.assertRaises(Refused) as refused:
            kamzirda.update_entries(b"", 64)
        self.assertEqual(refused.exception.rule, 2)

    def test_numbers_that_are_none(self):
        self.assertEqual(kamzirda.version(), 100)
        for call, words in [(kamzirda.rule_text, (99,)), (kamzirda.base64_encode, (b"x", 8))]:
            with self.assertRaisesRegex(ValueError, "no such number"):
                call(*words)


if __name__ == "__main__":
    unittest.main()
