"""A second implementation of the message format, written from docs/FORMAT.md, that shares no code with the library.

It needs Python's standard library only: AES and GCM are written out below (slow and plain), and the package `cryptography` takes
their place where it is installed. Refusals are raised as `Refused(number, frame)`.
"""
import hashlib
import hmac
import struct

VERSION_AND_SUITE = b"\x02\x04\x78"
FRAMED = b"\x02"
END = 0xFFFFFFFF
FIELD_MAX = 0xFFFF


class Refused(Exception):
    def __init__(self, number, frame=0):
        super().__init__(number, frame)
        self.number, self.frame = number, frame


# AES-256 and GCM, plainly

def _xtime(a):
    return ((a << 1) ^ 0x1B) & 0xFF if a & 0x80 else a << 1


def _make_sbox():
    exp, log, x = [0] * 255, [0] * 256, 1
    for i in range(255):
        exp[i], log[x] = x, i
        x ^= _xtime(x)
    box = []
    for a in range(256):
        inv = exp[(255 - log[a]) % 255] if a else 0
        b = inv
        for n in range(1, 5):
            b ^= ((inv << n) | (inv >> (8 - n))) & 0xFF
        box.append(b ^ 0x63)
    return box


_SBOX = _make_sbox()


def _expand(key):
    words = [list(key[4 * i:4 * i + 4]) for i in range(8)]
    rcon = 1
    for i in range(8, 60):
        t = list(words[i - 1])
        if i % 8 == 0:
            t = [_SBOX[b] for b in t[1:] + t[:1]]
            t[0] ^= rcon
            rcon = _xtime(rcon)
        elif i % 8 == 4:
            t = [_SBOX[b] for b in t]
        words.append([a ^ b for a, b in zip(words[i - 8], t)])
    return [sum(words[4 * r:4 * r + 4], []) for r in range(15)]


def _encrypt(keys, block):
    s = [a ^ b for a, b in zip(block, keys[0])]
    for r in range(1, 15):
        s = [_SBOX[b] for b in s]
        s = [s[(i + 4 * (i % 4)) % 16] for i in range(16)]
        if r < 14:
            m = []
            for c in range(0, 16, 4):
                col = s[c:c + 4]
                for i in range(4):
                    a, b, d, e = (col[(i + k) % 4] for k in range(4))
                    m.append(_xtime(a) ^ _xtime(b) ^ b ^ d ^ e)
            s = m
        s = [a ^ b for a, b in zip(s, keys[r])]
    return bytes(s)


def _product(x, y):
    z, v = 0, y
    for i in range(127, -1, -1):
        if x >> i & 1:
            z ^= v
        v = (v >> 1) ^ (0xE1 << 120) if v & 1 else v >> 1
    return z


class _PlainGcm:
    def __init__(self, key):
        self.keys = _expand(key)
        self.h = int.from_bytes(_encrypt(self.keys, bytes(16)), "big")

    def _ctr(self, nonce, data):
        out = bytearray()
        for i in range(0, len(data), 16):
            pad = _encrypt(self.keys, nonce + struct.pack(">I", 2 + i // 16))
            out += bytes(a ^ b for a, b in zip(data[i:i + 16], pad))
        return bytes(out)

    def _tag(self, nonce, aad, sealed):
        y = 0
        text = aad + bytes(-len(aad) % 16) + sealed + bytes(-len(sealed) % 16) + struct.pack(">QQ", 8 * len(aad), 8 * len(sealed))
        for i in range(0, len(text), 16):
            y = _product(y ^ int.from_bytes(text[i:i + 16], "big"), self.h)
        pad = _encrypt(self.keys, nonce + b"\0\0\0\1")
        return bytes(a ^ b for a, b in zip(y.to_bytes(16, "big"), pad))

    def seal(self, nonce, aad, text):
        sealed = self._ctr(nonce, text)
        return sealed, self._tag(nonce, aad, sealed)

    def open(self, nonce, aad, sealed, tag):
        return self._ctr(nonce, sealed) if self._tag(nonce, aad, sealed) == tag else None


class _LibraryGcm:
    def __init__(self, key):
        self.aead = AESGCM(key)

    def seal(self, nonce, aad, text):
        both = self.aead.encrypt(nonce, text, aad)
        return both[:-16], both[-16:]

    def open(self, nonce, aad, sealed, tag):
        try:
            return self.aead.decrypt(nonce, sealed + tag, aad)
        except InvalidTag:
            return None


try:
    from cryptography.exceptions import InvalidTag
    from cryptography.hazmat.primitives.ciphers.aead import AESGCM
    Gcm = _LibraryGcm
except ImportError:
    Gcm = _PlainGcm


# keys

def _hkdf(salt, key, info, n):
    extracted = hmac.new(salt, key, hashlib.sha512).digest()
    return hmac.new(extracted, info + b"\1", hashlib.sha512).digest()[:n]


def sealing_key(key, message_id):
    return _hkdf(message_id, key, b"\x04\x78DERIVEKEY", 32)


def commitment(key, message_id):
    return _hkdf(message_id, key, b"COMMITKEY", 32)


# headers

def _field(b):
    return struct.pack(">H", len(b)) + b


def _context_bytes(context):
    if not context:
        return b"\0\0"
    return _field(struct.pack(">H", len(context)) + b"".join(_field(n) + _field(v) for n, v in context))


def header_bytes(message_id, context, data_keys, frame_length, commit):
    keys = b"".join(_field(a) + _field(b) + _field(c) for a, b, c in data_keys)
    return (VERSION_AND_SUITE + message_id + _context_bytes(context) + struct.pack(">H", len(data_keys)) + keys
            + FRAMED + struct.pack(">I", frame_length) + commit)


def check(key, message_id, context, data_keys, frame_length, text_length):
    if len(key) != 32 or len(message_id) != 32 or not 0 < frame_length <= END:
        raise Refused(2)
    names = [n for n, _ in context]
    size = sum(4 + len(n) + len(v) for n, v in context)
    if any(a >= b for a, b in zip(names, names[1:])) or any(len(x) > FIELD_MAX for p in context for x in p) or size + 2 > FIELD_MAX:
        raise Refused(3)
    if not 0 < len(data_keys) <= 0xFFFF or any(len(x) > FIELD_MAX for k in data_keys for x in k):
        raise Refused(4)
    if text_length > END * frame_length or text_length >= 1 << 63:
        raise Refused(5)


def sealed_len(key, message_id, context, data_keys, frame_length, text_length):
    check(key, message_id, context, data_keys, frame_length, text_length)
    keys = sum(6 + len(a) + len(b) + len(c) for a, b, c in data_keys)
    frames = max(text_length - 1, 0) // frame_length
    return 90 + len(_context_bytes(context)) + keys + text_length + 32 * frames + 40


def _frame_aad(message_id, final, number, length):
    label = b"AWSKMSEncryptionClient Final Frame" if final else b"AWSKMSEncryptionClient Frame"
    return message_id + label + struct.pack(">IQ", number, length)


def _nonce(number):
    return number.to_bytes(12, "big")


def seal(key, message_id, context, data_keys, frame_length, text):
    check(key, message_id, context, data_keys, frame_length, len(text))
    gcm = Gcm(sealing_key(key, message_id))
    header = header_bytes(message_id, context, data_keys, frame_length, commitment(key, message_id))
    out = [header, gcm.seal(bytes(12), header, b"")[1]]
    number, rest = 1, text
    while len(rest) > frame_length:
        sealed, tag = gcm.seal(_nonce(number), _frame_aad(message_id, False, number, frame_length), rest[:frame_length])
        out += [struct.pack(">I", number), _nonce(number), sealed, tag]
        number, rest = number + 1, rest[frame_length:]
    sealed, tag = gcm.seal(_nonce(number), _frame_aad(message_id, True, number, len(rest)), rest)
    out += [struct.pack(">II", END, number), _nonce(number), struct.pack(">I", len(rest)), sealed, tag]
    return b"".join(out)


class _Reader:
    """Bytes that are cut off the front; short is what to raise where there are too few."""

    def __init__(self, data, short):
        self.data, self.at, self.short = data, 0, short

    def cut(self, n):
        if len(self.data) - self.at < n:
            raise self.short
        self.at += n
        return self.data[self.at - n:self.at]

    def number(self, n):
        return int.from_bytes(self.cut(n), "big")

    def field(self):
        return self.cut(self.number(2))

    def left(self):
        return len(self.data) - self.at


def read_header(message):
    """(message id, context, data keys, frame length, commitment), the header's bytes, its tag, and what comes after."""
    no = Refused(3)
    r = _Reader(message, no)
    if r.cut(3) != VERSION_AND_SUITE:
        raise no
    message_id = r.cut(32)
    c = _Reader(r.field(), no)
    context = []
    if c.left():
        count = c.number(2)
        context = [(c.field(), c.field()) for _ in range(count)]
        names = [n for n, _ in context]
        if not context or c.left() or any(a >= b for a, b in zip(names, names[1:])):
            raise no
    count = r.number(2)
    if count == 0:
        raise no
    data_keys = [(r.field(), r.field(), r.field()) for _ in range(count)]
    if r.cut(1) != FRAMED:
        raise no
    frame_length = r.number(4)
    if frame_length == 0:
        raise no
    commit = r.cut(32)
    header = message[:r.at]
    tag = r.cut(16)
    return (message_id, context, data_keys, frame_length, commit), header, tag, message[r.at:]


def _open_frame(gcm, message_id, frame_length, number, r):
    """One frame: its text, and whether it was the final one."""
    not_next = r.short
    final = False
    said = r.number(4)
    if said == END:
        final = True
        said = r.number(4)
    elif number == END:
        raise not_next
    if said != number or r.cut(12) != _nonce(number):
        raise not_next
    length = r.number(4) if final else frame_length
    if length > frame_length:
        raise not_next
    sealed, tag = r.cut(length), r.cut(16)
    text = gcm.open(_nonce(number), _frame_aad(message_id, final, number, length), sealed, tag)
    if text is None:
        raise Refused(7, number)
    return text, final


def open_message(key, message, lent=None):
    """(context, text), or Refused."""
    if lent is not None and lent < len(message):
        raise Refused(1)
    (message_id, context, _, frame_length, commit), header, tag, rest = read_header(message)
    if commit != commitment(key, message_id):
        raise Refused(4)
    gcm = Gcm(sealing_key(key, message_id))
    if gcm.open(bytes(12), header, b"", tag) is None:
        raise Refused(5)
    r, text, number, final = _Reader(rest, None), [], 0, False
    while not final:
        number += 1
        r.short = Refused(6, number)
        part, final = _open_frame(gcm, message_id, frame_length, number, r)
        text.append(part)
    if r.left():
        raise Refused(8, number)
    return context, b"".join(text)
