#!/usr/bin/env python3
"""convert_vectors.py FOLDER: write crates/vectors/data/*.txt from the .jsonl files of FOLDER.

One case a line, words separated by single spaces. Bytes are hexadecimal digits, `-` for none; a list is its length and then its
elements' words; what may be missing is `?` where it is.
  sha512     message hash
  hmac512    key message mac
  hkdf512    salt key info length out
  aes256     key block encrypted
  gcm        key nonce aad sealed tag ok|no text
  seal       key id frame-length lent text context data-keys   (is message | refused N)
  length     key id frame-length text-length context data-keys   (is N | refused N)
  header     message   (is id frame-length commitment tag length-of-rest context data-keys | none)
  open       key lent message   (is text context | refused N FRAME)
The last four are whole messages that another implementation made, and their damaged forms. The first of seal and of open are the
message that docs/FORMAT.md works out, made by tests/reference.py, and the ways of damaging it that are listed there.
"""
import hashlib
import hmac
import json
import os
import random
import sys

import reference

OUT = os.path.join(os.path.dirname(os.path.abspath(__file__)), "..", "crates", "vectors", "data")


def cases(folder, name):
    with open(os.path.join(folder, name + ".jsonl")) as f:
        return [json.loads(line) for line in f if line.strip()]


def word(x):
    return "?" if x is None else str(x) if isinstance(x, int) else x or "-"


def listed(rows):
    return [str(len(rows))] + [word(x) for row in rows for x in row]


def request(d):
    return listed(d["context"]) + listed(d["holders"])


def answer(e, what):
    return ["refused", word(e["refused"])] if "refused" in e else ["is", word(e[what])]


def seal_case(d):
    return [word(d["key"]), word(d["id"]), word(d["frame"]), word(d["lent"]), word(d["text"])] + request(d) + answer(d["expect"], "message")


def length_case(d):
    return [word(d["key"]), word(d["id"]), word(d["frame"]), word(d["text_length"])] + request(d) + answer(d["expect"], "length")


def header_case(d):
    e, h = d["expect"], d["expect"]["head"]
    if h is None:
        return [word(d["message"]), "none"]
    return [word(d["message"]), "is", h["id"], word(h["frame"]), h["commit"], e["tag"], word(e["rest"])] + request(h)


def open_case(d):
    e = d["expect"]
    out = [d["key"], word(d["lent"]), word(d["message"])]
    if "refused" in e:
        return out + ["refused"] + [word(n) for n in e["refused"]]
    return out + ["is", word(e["text"])] + listed(e["context"])


KEY_32, ID = bytes(range(32)), bytes(range(32, 64))
CONTEXT, DATA_KEYS = [(b"on", b"p1")], [(b"x", b"y", b"z")]


def worked(text=b"deeds!", message_id=ID):
    return reference.seal(KEY_32, message_id, CONTEXT, DATA_KEYS, 4, text)


def worked_seal():
    pairs = ["1", b"on".hex(), b"p1".hex(), "1", b"x".hex(), b"y".hex(), b"z".hex()]
    return [KEY_32.hex(), ID.hex(), "4", "189", b"deeds!".hex()] + pairs + ["is", worked().hex()]


def worked_open():
    m, long = worked(), worked(b"deedsdeeds")
    turned = lambda i: m[:i] + bytes([m[i] ^ 1]) + m[i + 1:]
    cases = [(m[:-1], 6, 2), (m + b"\0", 8, 2), (turned(127), 7, 1), (turned(0), 3, 0), (turned(3), 4, 0), (turned(63), 4, 0), (turned(46), 5, 0),
             (turned(51), 5, 0), (turned(62), 5, 0), (turned(95), 5, 0), (m[:111] + worked(message_id=bytes(32))[111:], 7, 1),
             (long[:147] + long[183:], 6, 2), (long[:111] + long[147:183] + long[111:147] + long[183:], 6, 1)]
    rows = [[KEY_32.hex(), str(len(m)), m.hex(), "is", b"deeds!".hex(), "1", b"on".hex(), b"p1".hex()],
            [KEY_32.hex(), str(len(m) - 1), m.hex(), "refused", "1", "0"], [bytes(32).hex(), str(len(m)), m.hex(), "refused", "4", "0"]]
    return rows + [[KEY_32.hex(), str(len(b) + 5), b.hex(), "refused", str(n), str(f)] for b, n, f in cases]


# GCM's own worked cases with 256-bit keys and nonces of 12 bytes (McGrew and Viega, test cases 13 to 16)
KEY = "feffe9928665731c6d6a8f9467308308" * 2
NONCE = "cafebabefacedbaddecaf888"
TEXT = ("d9313225f88406e5a55909c5aff5269a86a7a9531534f7da2e4c303d8a318a721c3c0c95956809532fcf0e2449a6b525"
        "b16aedf5aa0de657ba637b391aafd255")
SEALED = ("522dc1f099567d07f47f37a32a84427d643a8cdcbfe5c0c97598a2bd2555d1aa8cb08e48590dbb3da7b08b1056828838"
          "c5f61e6393ba7a0abcc9f662898015ad")
WORKED = [
    ["00" * 32, "00" * 12, "-", "-", "530f8afbc74536b9a963b4f1c4cb738b", "ok", "-"],
    ["00" * 32, "00" * 12, "-", "cea7403d4d606b6e074ec5d3baf39d18", "d0d1c8a799996bf0265b98b5d48ab919", "ok", "00" * 16],
    [KEY, NONCE, "-", SEALED, "b094dac5d93471bdec1a502270e3cc6c", "ok", TEXT],
    [KEY, NONCE, "feedfacedeadbeeffeedfacedeadbeefabaddad2", SEALED[:120], "76fc6ece0f4e1768cddf8853bb2d551b", "ok", TEXT[:120]],
]


def hkdf_cases():
    """HKDF with SHA-512 and one block of output, by Python's hmac and hashlib, from a fixed seed."""
    r = random.Random(5869)
    rows = []
    for i in range(40):
        salt, key, info = (bytes(r.randrange(256) for _ in range(r.choice([0, 1, 9, 32, 64, 127, 128, 129, 200]))) for _ in range(3))
        n = 64 if i == 0 else r.randrange(65)
        extracted = hmac.new(salt, key, hashlib.sha512).digest()
        out = hmac.new(extracted, info + b"\1", hashlib.sha512).digest()[:n]
        rows.append([word(salt.hex()), word(key.hex()), word(info.hex()), str(n), word(out.hex())])
    return rows


def write(name, rows):
    with open(os.path.join(OUT, name + ".txt"), "w") as f:
        for row in rows:
            f.write(" ".join(row) + "\n")
    print(name, len(rows))


def main(folder):
    os.makedirs(OUT, exist_ok=True)
    write("sha512", [[word(d["message"]), d["hash"]] for d in cases(folder, "sha512")])
    write("hmac512", [[word(d["key"]), word(d["message"]), d["mac"]] for d in cases(folder, "hmac512")])
    write("hkdf512", hkdf_cases())
    write("aes256", [[d["key"], d["text"], d["sealed"]] for d in cases(folder, "aes256")])
    write("gcm", [[d["key"], d["nonce"], word(d["aad"]), word(d["sealed"]), d["tag"], "ok" if d["ok"] else "no", word(d["text"])] for d in cases(folder, "aes256gcm")] + WORKED)
    # a frame length is a number of 32 bits in a request, and a text's length one of 64: larger ones can't be asked for
    messages = [d for d in cases(folder, "messages") if d.get("frame", 0) < 1 << 32 and d.get("text_length", 0) < 1 << 64]
    for name, kind, case in (("seal", "seal", seal_case), ("length", "seal-length", length_case), ("header", "look", header_case), ("open", "open", open_case)):
        first = [worked_seal()] if name == "seal" else worked_open() if name == "open" else []
        write(name, first + [case(d) for d in messages if d["kind"] == kind])


main(sys.argv[1])
