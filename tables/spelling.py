"""Names as JSON and XML have them, by OASIS's rule (KMIP Additional Message Encodings, normalizing names)."""

import re


def spelled(name):
    """SHA-256 to SHA_256, 3DES to DES3, PKCS1 v1.5 to PKCS1V1_5, Re-key to ReKey, HMAC-SHA1 to HMAC_SHA1."""
    text = re.sub(r"[()]", " ", name)
    # a word begins after what is no letter, digit or underscore, where a second, small letter follows
    text = re.sub(r"[^A-Za-z0-9_](?=[A-Za-z][a-z])", " ", text)
    text = re.sub(r"[^A-Za-z0-9_\s]", "_", text).strip()
    text = re.sub(r"^(\d+)([^\s]*)", r"\2\1", text)
    return "".join(word[0].upper() + word[1:] for word in text.split())
