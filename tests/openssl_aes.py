"""OpenSSL's AES, for keys of 16, 24 and 32 bytes: the key expansion and a block, both ways."""
import ctypes

crypto = ctypes.CDLL("libcrypto.so.3")


class AesKey(ctypes.Structure):
    # OpenSSL's AES_KEY: 60 words of round keys and the number of rounds.
    _fields_ = [("words", ctypes.c_ubyte * 240), ("rounds", ctypes.c_int)]


def schedule(key, setter):
    k = AesKey()
    assert setter(key, 8 * len(key), ctypes.byref(k)) == 0 and k.rounds == len(key) // 4 + 6
    return k


def round_keys(key):
    """The key expansion; OpenSSL's words are bytes in FIPS order or words of the machine."""
    k = schedule(key, crypto.AES_set_encrypt_key)
    raw = bytes(k.words)[: 16 * (k.rounds + 1)]
    if raw[: len(key)] != key:
        raw = b"".join(raw[i : i + 4][::-1] for i in range(0, len(raw), 4))
    assert raw[: len(key)] == key
    return raw


def encipher(key, block):
    k = schedule(key, crypto.AES_set_encrypt_key)
    out = ctypes.create_string_buffer(16)
    crypto.AES_encrypt(block, out, ctypes.byref(k))
    return out.raw


def decipher(key, block):
    k = schedule(key, crypto.AES_set_decrypt_key)
    out = ctypes.create_string_buffer(16)
    crypto.AES_decrypt(block, out, ctypes.byref(k))
    return out.raw
