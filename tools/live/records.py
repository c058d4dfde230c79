"""Records of TLS 1.3 (RFC 8446) of a server's own making, as no library sends them: session tickets, 900 to a record.

OpenSSL makes the handshake; its log of keys has the secret, and libcrypto encrypts what is sent from then on.
"""
import contextlib
import ctypes
import ctypes.util
import hashlib
import hmac
import struct

# By the name of the cipher: libcrypto's function of it, the bytes of a key, and the digest of secrets.
CIPHERS = {
    'TLS_AES_128_GCM_SHA256': ('EVP_aes_128_gcm', 16, 'sha256'),
    'TLS_AES_256_GCM_SHA384': ('EVP_aes_256_gcm', 32, 'sha384'),
    'TLS_CHACHA20_POLY1305_SHA256': ('EVP_chacha20_poly1305', 32, 'sha256'),
}
HANDSHAKE, DATA = 22, 23
GET_TAG, TAG = 0x10, 16     # EVP_CTRL_AEAD_GET_TAG, and the bytes of a tag
# A message: that it is a NewSessionTicket, its length, the seconds that it holds, a number, no nonce, a ticket of one byte,
# and no extensions.
TICKET = struct.pack('>I', 4 << 24 | 14) + struct.pack('>II', 7200, 1) + b'\0' + b'\0\1x' + b'\0\0'


def libcrypto():
    library = ctypes.CDLL(ctypes.util.find_library('crypto'))
    for name in ('EVP_CIPHER_CTX_new', *(name for name, _, _ in CIPHERS.values())):
        getattr(library, name).restype = ctypes.c_void_p
    return library


def expanded(secret, label, length, digest):
    """HKDF-Expand-Label of no context, for no more bytes than the digest has."""
    label = b'tls13 ' + label
    info = struct.pack('>HB', length, len(label)) + label + b'\0'
    return hmac.new(secret, info + b'\1', digest).digest()[:length]


class Records:
    """The records that a server sends after its handshake, by the name of the cipher and the line of the log of keys that
    has the server's secret. It has sent none yet."""

    def __init__(self, cipher, secret):
        self.crypto = libcrypto()
        function, length, digest = CIPHERS[cipher]
        secret = bytes.fromhex(secret)
        self.cipher = ctypes.c_void_p(getattr(self.crypto, function)())
        self.key = expanded(secret, b'key', length, getattr(hashlib, digest))
        self.first = expanded(secret, b'iv', 12, getattr(hashlib, digest))
        self.context = ctypes.c_void_p(self.crypto.EVP_CIPHER_CTX_new())
        self.count = 0

    def __enter__(self):
        return self

    def __exit__(self, *_):
        self.crypto.EVP_CIPHER_CTX_free(self.context)

    def of(self, kind, content):
        """The next record, with this content of at most 16384 bytes."""
        plain = content + bytes([kind])
        head = struct.pack('>BHH', DATA, 0x0303, len(plain) + TAG)
        number = (int.from_bytes(self.first, 'big') ^ self.count).to_bytes(12, 'big')
        self.count += 1
        sealed, tag, length = ctypes.create_string_buffer(len(plain)), ctypes.create_string_buffer(TAG), ctypes.c_int()
        crypto = self.crypto
        done = (crypto.EVP_EncryptInit_ex(self.context, self.cipher, None, self.key, number)
                and crypto.EVP_EncryptUpdate(self.context, None, ctypes.byref(length), head, len(head))
                and crypto.EVP_EncryptUpdate(self.context, sealed, ctypes.byref(length), plain, len(plain))
                and crypto.EVP_EncryptFinal_ex(self.context, None, ctypes.byref(length))
                and crypto.EVP_CIPHER_CTX_ctrl(self.context, GET_TAG, TAG, tag))
        if not done:
            raise OSError('libcrypto does not encrypt')
        return head + sealed.raw + tag.raw

    def tickets(self):
        return self.of(HANDSHAKE, TICKET * (16384 // len(TICKET)))


@contextlib.contextmanager
def records_of(tls, log):
    """The records of a connection whose handshake is done, and whose log of keys is in this file."""
    with open(log, encoding='ascii') as lines:
        secrets = [line.split()[2] for line in lines if line.startswith('SERVER_TRAFFIC_SECRET_0 ')]
    with Records(tls.cipher()[0], secrets[-1]) as records:
        yield records
