"""Security suite 0 of DLMS/COSEM as a third implementation has it: AES-128-GCM with tags of 12 bytes, and the sealed APDUs of GET, SET and
ACTION. It is for tests alone, and is slow where the package `cryptography` isn't there. `python3 hostile/suite0.py` tries it."""

import functools

try:
    from cryptography.exceptions import InvalidTag
    from cryptography.hazmat.primitives.ciphers import Cipher, algorithms, modes
except ImportError:
    Cipher = None

# Suite 0, authenticated and encrypted, with the global unicast key; and the bytes of a tag.
CONTROL, TAG = 0x30, 12
# The tag of a sealed APDU by that of the plain one.
SEALED = {0xC0: 0xC8, 0xC1: 0xC9, 0xC3: 0xCB, 0xC4: 0xCC, 0xC5: 0xCD, 0xC7: 0xCF}


# ---- AES-128 (FIPS 197) and GCM (SP 800-38D), by their definitions


def doubled(byte):
    """A byte times x in the field of AES."""
    return (byte << 1 ^ 0x1B) & 0xFF if byte & 0x80 else byte << 1


def product(a, b):
    """The product of two bytes in the field of AES."""
    made = 0
    while b:
        made ^= a if b & 1 else 0
        a, b = doubled(a), b >> 1
    return made


@functools.cache
def boxes():
    """The S-box: the inverse of each byte, and an affine map."""
    box = bytearray(256)
    for byte in range(256):
        inverse = next((it for it in range(256) if product(byte, it) == 1), 0)
        box[byte] = 0x63
        for turn in range(5):
            box[byte] ^= (inverse << turn | inverse >> 8 - turn) & 0xFF
    return bytes(box)


@functools.lru_cache(64)
def round_keys(key):
    """The eleven round keys."""
    words, rcon = [key[at : at + 4] for at in range(0, 16, 4)], 1
    for at in range(4, 44):
        word = words[-1]
        if at % 4 == 0:
            word = bytes(boxes()[it] for it in word[1:] + word[:1])
            word, rcon = bytes([word[0] ^ rcon]) + word[1:], doubled(rcon)
        words.append(bytes(a ^ b for a, b in zip(words[at - 4], word)))
    return [b"".join(words[at : at + 4]) for at in range(0, 44, 4)]


def block(key, given):
    """A block of 16 bytes under a key."""
    keys, box = round_keys(key), boxes()
    state = bytes(a ^ b for a, b in zip(given, keys[0]))
    for number in range(1, 11):
        state = bytes(box[state[(at + 4 * (at % 4)) % 16]] for at in range(16))
        if number < 10:
            mixed = bytearray()
            for at in range(0, 16, 4):
                a = state[at : at + 4]
                mixed += bytes(doubled(a[i]) ^ doubled(a[(i + 1) % 4]) ^ a[(i + 1) % 4] ^ a[(i + 2) % 4] ^ a[(i + 3) % 4] for i in range(4))
            state = bytes(mixed)
        state = bytes(a ^ b for a, b in zip(state, keys[number]))
    return state


def ghash(h, data):
    """GHASH of bytes that are whole blocks."""
    made = 0
    for at in range(0, len(data), 16):
        made ^= int.from_bytes(data[at : at + 16], "big")
        product_, factor = 0, h
        for bit in range(127, -1, -1):
            product_ ^= factor if made >> bit & 1 else 0
            factor = factor >> 1 ^ (0xE1 << 120 if factor & 1 else 0)
        made = product_
    return made.to_bytes(16, "big")


def padded(data):
    """Bytes, with zeros up to a whole block."""
    return data + bytes(-len(data) % 16)


def own_gcm(key, iv, aad, text, is_sealed):
    """The other text, and the tag."""
    stream = b"".join(block(key, iv + (number + 2).to_bytes(4, "big")) for number in range(-(-len(text) // 16)))
    other = bytes(a ^ b for a, b in zip(text, stream))
    sizes = (8 * len(aad)).to_bytes(8, "big") + (8 * len(text)).to_bytes(8, "big")
    h = int.from_bytes(block(key, bytes(16)), "big")
    sum_ = ghash(h, padded(aad) + padded(text if is_sealed else other) + sizes)
    return other, bytes(a ^ b for a, b in zip(sum_, block(key, iv + b"\0\0\0\1")))[:TAG]


def seal_gcm(key, iv, aad, text):
    """The ciphertext and the tag of a text."""
    if Cipher is None:
        return own_gcm(key, iv, aad, text, False)
    it = Cipher(algorithms.AES(key), modes.GCM(iv)).encryptor()
    it.authenticate_additional_data(aad)
    sealed = it.update(text) + it.finalize()
    return sealed, it.tag[:TAG]


def open_gcm(key, iv, aad, sealed, tag):
    """The text of a ciphertext, and None where its tag isn't right."""
    if Cipher is None:
        text, found = own_gcm(key, iv, aad, sealed, True)
        return text if found == tag else None
    it = Cipher(algorithms.AES(key), modes.GCM(iv, tag, min_tag_length=TAG)).decryptor()
    it.authenticate_additional_data(aad)
    try:
        return it.update(sealed) + it.finalize()
    except InvalidTag:
        return None


# ---- sealed APDUs, and datagrams of them


def wrapped(apdu):
    """The datagram of an APDU."""
    return b"\0\1\0\1\0\1" + len(apdu).to_bytes(2, "big") + apdu


def length(size):
    """A length in its shortest form."""
    if size < 0x80:
        return bytes([size])
    made = size.to_bytes((size.bit_length() + 7) // 8, "big")
    return bytes([0x80 | len(made)]) + made


def sealed(keys, title, counter, apdu):
    """The datagram of the sealing of an APDU under two keys by the end with this title."""
    key, authentication = keys
    number = counter.to_bytes(4, "big")
    text, tag = seal_gcm(key, title + number, bytes([CONTROL]) + authentication, apdu)
    content = bytes([CONTROL]) + number + text + tag
    return wrapped(bytes([SEALED[apdu[0]]]) + length(len(content)) + content)


def parts_of(data):
    """The tag, the counter, the ciphertext and the authentication tag of a datagram that has the form of a sealing; None of another one."""
    if len(data) < 10 or data[:2] != b"\0\1" or int.from_bytes(data[6:8], "big") != len(data) - 8 or data[8] not in SEALED.values():
        return None
    long = data[9] & 0x7F if data[9] >= 0x80 else 0
    size = int.from_bytes(data[10 : 10 + long], "big") if long else data[9]
    content = data[10 + long :]
    if data[9] == 0x80 or len(content) != size or size < 5 + TAG or content[0] != CONTROL:
        return None
    return data[8], int.from_bytes(content[1:5], "big"), content[5:-TAG], content[-TAG:]


def opened(keys, title, data):
    """The APDU of a datagram that the end with this title sealed under two keys, and None of another one."""
    parts = parts_of(bytes(data))
    if parts is None:
        return None
    tag, counter, text, mac = parts
    apdu = open_gcm(keys[0], title + counter.to_bytes(4, "big"), bytes([CONTROL]) + keys[1], text, mac)
    return apdu if apdu and SEALED.get(apdu[0]) == tag else None


def main():
    """Tries it by published vectors."""
    key = bytes(range(16))
    # FIPS 197, C.1.
    assert block(key, bytes.fromhex("00112233445566778899aabbccddeeff")).hex() == "69c4e0d86a7b0430d8cdb78070b4c55a"
    # The Green Book's glo-get-request.
    keys = key, bytes(range(0xD0, 0xE0))
    data = sealed(keys, b"MMM" + bytes.fromhex("0000bc614e"), 0x01234567, bytes.fromhex("c0010000080000010000ff0200"))
    assert data[8:].hex() == "c81e3001234567411312ff935a47566827c467bc7d825c3be4a77c3fcc056b6b", data.hex()
    # The two ways to do it are one.
    for size in (0, 1, 15, 16, 17, 100):
        aad, text = bytes(range(size % 20)), bytes(range(size))
        assert own_gcm(key, bytes(12), aad, text, False) == seal_gcm(key, bytes(12), aad, text)
        assert open_gcm(key, bytes(12), aad, *seal_gcm(key, bytes(12), aad, text)) == text
    assert opened(keys, data[:0] + b"MMM" + bytes.fromhex("0000bc614e"), data).hex() == "c0010000080000010000ff0200"
    assert opened(keys, b"another1", data) is None
    print("suite0: ok" + ("" if Cipher else ", by its own AES alone"))


if __name__ == "__main__":
    main()
