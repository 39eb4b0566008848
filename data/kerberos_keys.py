"""What is encrypted in messages of Kerberos, by keys that are known: aes256-cts-hmac-sha1-96 (RFC 3961, 5.1 and 5.3; RFC 3962)."""
import hashlib
import hmac
import math
import struct

from cryptography.hazmat.primitives.ciphers import Cipher, algorithms, modes

AES256 = 18
_BLOCK = 16
_MAC = 12


def n_fold(text, count):
    """The text, each copy turned by 13 bits more, added up in so many bytes (RFC 3961, 5.1)."""
    bits, copies = len(text) * 8, math.lcm(len(text), count) // len(text)
    number = int.from_bytes(text, "big")
    whole = b""
    for it in range(copies):
        turn = 13 * it % bits
        whole += (number >> turn | (number << (bits - turn)) & ((1 << bits) - 1)).to_bytes(len(text), "big")
    total = sum(int.from_bytes(whole[it : it + count], "big") for it in range(0, len(whole), count))
    limit = 1 << (count * 8)
    while total >= limit:
        total = total % limit + total // limit
    return total.to_bytes(count, "big")


def aes(key):
    """AES on one block."""
    return Cipher(algorithms.AES(key), modes.ECB())


def derived(key, constant):
    """A key for a use (RFC 3961, 5.1)."""
    encryptor = aes(key).encryptor()
    block, found = n_fold(constant, _BLOCK), b""
    while len(found) < len(key):
        block = encryptor.update(block)
        found += block
    return found[: len(key)]


def of_password(password, salt):
    """The key of a password (RFC 3962, 4)."""
    return derived(hashlib.pbkdf2_hmac("sha1", password.encode(), salt.encode(), 4096, 32), b"kerberos")


def decrypted(key, usage, cipher):
    """What was encrypted, whose checksum has to be right (RFC 3961, 5.3)."""
    body, mac = cipher[:-_MAC], cipher[-_MAC:]
    plain = cts_decrypted(derived(key, struct.pack(">IB", usage, 0xAA)), body)
    wanted = hmac.new(derived(key, struct.pack(">IB", usage, 0x55)), plain, hashlib.sha1).digest()[:_MAC]
    if mac != wanted:
        raise ValueError("another key or another use")
    return plain[_BLOCK:]


def pseudo_random(key, text, count):
    """So many bytes of a key and a text (RFC 3962, 6; RFC 6113, 5.1)."""
    encryptor, found, turn = aes(derived(key, b"prf")).encryptor(), b"", 1
    while len(found) < count:
        found += encryptor.update(hashlib.sha1(bytes([turn]) + text).digest()[:_BLOCK])
        turn += 1
    return found[:count]


def combined(one, other, one_text, other_text):
    """A key of two keys (RFC 6113, 5.1)."""
    return xor(pseudo_random(one, one_text, len(one)), pseudo_random(other, other_text, len(one)))


def cts_decrypted(key, body):
    """CBC with the ciphertext of the last block stolen, whose last two blocks are always exchanged (RFC 3962, 5)."""
    decryptor = aes(key).decryptor()
    blocks = [body[it : it + _BLOCK] for it in range(0, len(body), _BLOCK)]
    if len(blocks) == 1:
        return decryptor.update(body)
    last_but_one, last = blocks[-2], blocks[-1]
    stolen = decryptor.update(last_but_one)
    whole = last + stolen[len(last) :]
    order = [*blocks[:-2], whole, last_but_one]
    found, before = b"", bytes(_BLOCK)
    for it in order[:-1]:
        found += xor(decryptor.update(it), before)
        before = it
    return found + xor(stolen, whole)[: len(last)]


def xor(one, other):
    """The bytes of both, added without carry."""
    return bytes(a ^ b for a, b in zip(one, other))


def keytab(path):
    """The keys of AES256 in a keytab, by the names of their principals."""
    with open(path, "rb") as it:
        data = it.read()
    found, at = {}, 2
    while at + 4 <= len(data):
        (size,) = struct.unpack(">i", data[at : at + 4])
        entry, at = data[at + 4 : at + 4 + abs(size)], at + 4 + abs(size)
        if size > 0:
            name, etype, key = keytab_entry(entry)
            if etype == AES256:
                found[name] = key
    return found


def keytab_entry(entry):
    """The name, the kind of key and the key of an entry."""
    (count,) = struct.unpack(">H", entry[:2])
    at, parts = 2, []
    for _ in range(count + 1):
        (length,) = struct.unpack(">H", entry[at : at + 2])
        parts.append(entry[at + 2 : at + 2 + length].decode())
        at += 2 + length
    at += 4 + 4 + 1  # the kind of name, the time, the short version
    etype, length = struct.unpack(">HH", entry[at : at + 4])
    return "/".join(parts[1:]), etype, entry[at + 4 : at + 4 + length]
