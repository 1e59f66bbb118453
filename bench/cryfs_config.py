"""The configuration of CryFS 0.11, sealed anew under keys that the same password gives quickly.

The file: a name with a zero byte; the length of the parameters of scrypt, and these (N, r, p, salt); then a sealed text. In that
stand the length of what follows before the padding, two names with zero bytes, and again a sealed text. A sealed text is 16
bytes of IV and one of AES-256-GCM; the outer key is the first 32 bytes that scrypt gives, the inner the next.
"""
import hashlib
import os
import struct

from cryptography.hazmat.primitives.ciphers.aead import AESGCM

QUICK = (1024, 1, 1)


def derive_quickly(content, password):
    """The same configuration with quick parameters of scrypt."""
    name, _, rest = content.partition(b"\0")
    (length,) = struct.unpack("<Q", rest[:8])
    parameters, sealed = rest[8 : 8 + length], rest[8 + length :]
    salt = parameters[16:]
    old, new = (keys(it, salt, password) for it in (struct.unpack("<QII", parameters[:16]), QUICK))
    padded = unseal(old[0], sealed)
    (length,) = struct.unpack("<I", padded[:4])
    form, cipher, inner = padded[4 : 4 + length].split(b"\0", 2)
    inside = b"\0".join([form, cipher, seal(new[1], unseal(old[1], inner))])
    if len(inside) != length:
        raise ValueError("the configuration of CryFS has another form than this script knows")
    parameters = struct.pack("<QII", *QUICK) + salt
    return name + b"\0" + struct.pack("<Q", len(parameters)) + parameters + seal(new[0], padded[:4] + inside + padded[4 + length :])


def keys(parameters, salt, password):
    n, r, p = parameters
    key = hashlib.scrypt(password, salt=salt, n=n, r=r, p=p, maxmem=(1 << 31) - 1, dklen=64)
    return key[:32], key[32:]


def unseal(key, text):
    return AESGCM(key).decrypt(text[:16], text[16:], None)


def seal(key, text):
    iv = os.urandom(16)
    return iv + AESGCM(key).encrypt(iv, text, None)
