#!/usr/bin/env python3
"""RSA signatures beside openssl.

    python3 bench/rsa.py lines         writes the stored run of `case_signatures` anew: keys, signatures and refusals by openssl and Python
    python3 bench/rsa.py vectors [N]   60 keys that openssl makes, or so many, 20 digests each: the same signatures, and each with one bit changed is refused
    python3 bench/rsa.py times         signatures and checks in a second, beside openssl's

It runs crates/case_signatures/out/case_signatures, built by `rt run`. Pushes are those of `reference.py`, signed by openssl. The times of openssl are of its
library, called from Python: with the primes of the key, and without them as `rsa_sign` has it. All are times of the processor, taken in turn in one run; what
it takes to read and answer the lines is left out.
"""
import ctypes
import ctypes.util
import hashlib
import pathlib
import random
import subprocess
import sys
import tempfile
import time

import reference
from keys import hexadecimal, numbers, text as key_text

TOP = pathlib.Path(__file__).resolve().parent.parent
CRATE = TOP / "crates" / "case_signatures"
PROGRAM = CRATE / "out" / "case_signatures"
NAME = bytes.fromhex("3031300d060960864801650304020105000420")
BARE_NAME = bytes.fromhex("302f300b0609608648016503040201" + "0420")
OTHER_NAME = bytes.fromhex("3031300d060960864801650304020405000420")


class Key:
    """A key that openssl made."""

    def __init__(self, bits):
        made = subprocess.run(["openssl", "genrsa", str(bits)], capture_output=True, check=True)
        self.pem = made.stdout
        self.modulus, self.public, self.private = numbers(self.pem)
        self.size = (self.modulus.bit_length() + 7) // 8

    def line(self, modulus=None, public=None, private=None):
        """The line that gives it, with other numbers in place of its own."""
        words = [
            self.modulus if modulus is None else modulus,
            self.public if public is None else public,
            self.private if private is None else private,
        ]
        return "key " + " ".join(hexadecimal(word) or "-" for word in words)

    def sign(self, digest):
        """What openssl signs."""
        with tempfile.NamedTemporaryFile() as file:
            file.write(self.pem)
            file.flush()
            command = ["openssl", "pkeyutl", "-sign", "-inkey", file.name, "-pkeyopt", "digest:sha256"]
            return subprocess.run(command, input=digest, capture_output=True, check=True).stdout

    def check(self, digest, signature):
        """Fails where openssl does not accept the signature."""
        with tempfile.NamedTemporaryFile() as file, tempfile.NamedTemporaryFile() as signed:
            for to, octets in ((file, self.pem), (signed, signature)):
                to.write(octets)
                to.flush()
            command = ["openssl", "pkeyutl", "-verify", "-inkey", file.name, "-sigfile", signed.name, "-pkeyopt", "digest:sha256"]
            subprocess.run(command, input=digest, capture_output=True, check=True)

    def text(self, change=lambda text: text):
        """The line that gives it as a text, or as one that was made of that."""
        return "text " + change(key_text(self.pem)).encode().hex()

    def power(self, message):
        """A message of any form, signed by Python."""
        signed = pow(int.from_bytes(message, "big"), self.private, self.modulus)
        return signed.to_bytes(self.size, "big")

    def message(self, end, padding=None):
        """An encoded message with this end."""
        rest = self.size - 3 - len(end)
        return b"\0\1" + b"\xff" * (rest if padding is None else padding) + b"\0" + end


def digest(*words):
    return hashlib.sha256(repr(words).encode()).digest()


def forgeries(key, text):
    """Octets that are no signature of the digest."""
    good = key.sign(text)
    room = key.size - 3
    loose = key.message(NAME + text, 8)
    yield key.power(loose + b"\x5a" * (key.size - len(loose)))
    yield key.power(key.message(NAME + text + b"\x5a" * 40))
    yield key.power(key.message(OTHER_NAME + text))
    yield key.power(key.message(BARE_NAME + text))
    yield key.power(key.message(NAME + digest("another")))
    yield key.power(b"\0\2" + b"\xff" * (room - 51) + b"\0" + NAME + text)
    yield key.power(b"\0\1" + b"\xff" * (room - 52) + b"\xfe\0" + NAME + text)
    yield b"\0" + good
    yield good + b"\0"
    yield good[:-1]
    yield b"\0" * key.size
    yield b"\xff" * key.size
    above = int.from_bytes(good, "big") + key.modulus
    yield above.to_bytes(key.size + 1, "big")
    if above < 256**key.size:
        yield above.to_bytes(key.size, "big")


def push(key, group, number, kek, policy, keys):
    """A push, signed by openssl, which accepts the signature."""
    row = reference.payload(reference.SA, reference.n4(number)) + reference.payload(reference.KD, policy) + reference.payload(reference.SIG, keys)
    size = len(row) + 4 + key.size
    head = reference.header(group.spi, reference.SEQ, reference.PUSH, bytes(4), size + -size % 16)
    text = reference.sha256(b"rekey" + head + row)
    signature = key.sign(text)
    key.check(text, signature)
    return head + reference.cbc_seal(kek[3], kek[2], reference.padded(row + reference.payload(0, signature)))


def pair(key, group):
    """The two pushes of the last batch of a group, signed by openssl."""
    root = [group.key(reference.node(1, made)) for made in (group.epoch - 1, group.epoch)]
    arrays = (reference.update_array(group.key(by), group.key(gives)) for by, gives in group.last_wraps[:-1])
    keys = reference.kd_body(reference.packet(3, group.spi, b"".join(reference.long(2, array) for array in arrays)))
    policy = reference.sa_body(group.spi, None, (1, key.modulus.bit_length()))
    yield push(key, group, group.sequence - 1, root[0], policy, keys)
    traffic = group.traffic[group.epoch]
    yield push(key, group, group.sequence, root[1], reference.sa_body(None, traffic[2]), reference.kd_body(reference.traffic_packet(traffic)))


def group_case(key, names, gone, told):
    """Members come, some are told their keys, and another one goes: those who were told follow."""
    server = reference.Server(reference.Disk(), reference.Draws(0, 0))
    server.create(2, b"console", 1000)
    server.queue = [(1, name.encode()) for name in names]
    server.fourth = lambda phase, session: None
    server.phases = {name: {"member": name, "cookies": name} for _, name in server.queue}
    server.sessions = {name: {} for _, name in server.queue}
    server.batch()
    server.queue = [(0, gone.encode())]
    server.batch()
    group = server.group
    membership, traffic = pair(key, group)
    says = [membership.hex(), *(f"{name} root {group.epoch}" for name in told), traffic.hex(), *(f"{name} traffic {group.epoch}" for name in told)]
    last = " ".join(octets.hex() for octets in group.traffic[group.epoch])
    says += [f"{name} {group.sequence} {last}" for name in told]
    words = [*("+" + name for name in names), ".", *("?" + name for name in told), "-" + gone, "."]
    return "group " + " ".join(words), " " + " ".join(says)


def texts(key):
    """Texts of a key and others, with what is said of them."""
    bits = key.modulus.bit_length()
    yield key.text(), f"ok {bits}"
    yield key.text(lambda text: text[:-1]), f"ok {bits}"
    yield key.text(lambda text: text.replace("\n", "\r\n").upper()), f"ok {bits}"
    yield key.text(lambda text: "00" + text), f"ok {bits}"
    yield "text -", "refused Missing { line: 1 }"
    yield key.text(lambda text: " "), "refused Missing { line: 2 }"
    yield key.text(lambda text: text[: text.index("\n")]), "refused Missing { line: 2 }"
    yield key.text(lambda text: text[: text.rstrip().rindex("\n")]), "refused Missing { line: 3 }"
    yield key.text(lambda text: text + "\n"), "refused Further { line: 4 }"
    yield key.text(lambda text: text[1:]), "refused NotHex { line: 1 }"
    yield key.text(lambda text: text.replace("\n01", "\n 01", 1)), "refused NotHex { line: 2 }"
    yield key.text(lambda text: text[:-3] + "0g\n"), "refused NotHex { line: 3 }"
    lines = key_text(key.pem).splitlines()
    even, short, long = (hexadecimal(number) for number in (key.modulus - 1, key.modulus >> 1 | 1, 1 << 4096 | 1))
    for line, word, fault in (
        (0, even, "EvenModulus"),
        (0, short, "FewBits"),
        (0, long, "ManyBits"),
        (0, "", "FewBits"),
        (1, "", "PublicExponent"),
        (1, "03", "Pair"),
        (2, lines[0], "PrivateExponent"),
        (2, lines[1], "Pair"),
    ):
        other = "\n".join(word if at == line else old for at, old in enumerate(lines))
        yield key.text(lambda text: other), f"refused Key {{ line: {3 if fault == 'Pair' else line + 1}, fault: {fault} }}"


def cases():
    """Lines and their answers."""
    chance = random.Random(58)
    for bits in (2048, 3072, 4096):
        key = Key(bits)
        yield key.line(), f"ok {bits}"
        for i in range(2):
            text = digest(bits, i)
            good = key.sign(text)
            yield f"sign {text.hex()}", good.hex()
            yield f"check {text.hex()} {good.hex()}", "yes"
            changed = bytearray(good)
            changed[chance.randrange(key.size)] ^= 1 << chance.randrange(8)
            yield f"check {text.hex()} {changed.hex()}", "no"
            yield f"check {digest('other').hex()} {good.hex()}", "no"
        if bits == 2048:
            for forged in forgeries(key, text):
                yield f"check {text.hex()} {forged.hex()}", "no"
            short = next(d for d in (digest("short", i) for i in range(100000)) if key.power(key.message(NAME + d))[0] == 0)
            good = key.sign(short)
            yield f"check {short.hex()} {good.hex()}", "yes"
            yield f"check {short.hex()} {good[1:].hex()}", "no"
            yield f"sign {short.hex()}", good.hex()
    key = Key(2048)
    yield key.line(modulus=key.modulus + 1), "refused EvenModulus"
    yield key.line(modulus=key.modulus >> 1 | 1), "refused FewBits"
    yield key.line(modulus=1 << 4096 | 1), "refused ManyBits"
    yield key.line(modulus=0), "refused FewBits"
    yield key.line(public=0), "refused PublicExponent"
    yield key.line(public=1 << 64 | 1), "refused PublicExponent"
    yield key.line(private=key.modulus), "refused PrivateExponent"
    yield key.line(private=key.private ^ 2), "refused Pair"
    yield key.line(public=3), "refused Pair"
    yield from texts(key)
    for key, case in ((key, ("abc", "b", "ac")), (Key(4096), ("abcd", "a", "bd"))):
        yield key.text(), f"ok {key.modulus.bit_length()}"
        yield group_case(key, *case)


def answers(lines):
    """What the program answers."""
    given = "".join(line + "\n" for line in lines)
    done = subprocess.run([PROGRAM], input=given, capture_output=True, text=True, check=True)
    return done.stdout.splitlines()


def store():
    rows = list(cases())
    (CRATE / "stdin").write_text("".join(line + "\n" for line, _ in rows))
    (CRATE / "stdout").write_text("".join(answer + "\n" for _, answer in rows))
    print(len(rows), "lines")


def vectors(keys=60):
    chance = random.Random(58)
    wrong = count = 0
    for i in range(keys):
        bits = (2048, 3072, 4096)[i % 3]
        key = Key(bits)
        rows = [(key.line(), f"ok {bits}")]
        for j in range(20):
            text = digest(i, j)
            good = key.sign(text)
            changed = bytearray(good)
            changed[chance.randrange(key.size)] ^= 1 << chance.randrange(8)
            rows.append((f"sign {text.hex()}", good.hex()))
            rows.append((f"check {text.hex()} {good.hex()}", "yes"))
            rows.append((f"check {text.hex()} {changed.hex()}", "no"))
        found = answers([line for line, _ in rows])
        wrong += sum(answer != row[1] for answer, row in zip(found, rows)) + abs(len(found) - len(rows))
        count += len(rows)
    print(count, "lines,", wrong, "wrong")


class Library:
    """openssl's library: RSA keys, with their primes or without."""

    def __init__(self):
        self.crypto = ctypes.CDLL(ctypes.util.find_library("crypto"))
        for name in ("BN_bin2bn", "RSA_new"):
            getattr(self.crypto, name).restype = ctypes.c_void_p

    def number(self, value):
        octets = value.to_bytes((value.bit_length() + 7) // 8, "big")
        return ctypes.c_void_p(self.crypto.BN_bin2bn(octets, len(octets), None))

    def key(self, key, primes):
        made = ctypes.c_void_p(self.crypto.RSA_new())
        self.crypto.RSA_set0_key(made, self.number(key.modulus), self.number(key.public), self.number(key.private))
        if primes:
            first, second = factors(key)
            self.crypto.RSA_set0_factors(made, self.number(first), self.number(second))
            rest = (key.private % (first - 1), key.private % (second - 1), pow(second, -1, first))
            self.crypto.RSA_set0_crt_params(made, *(self.number(value) for value in rest))
        return made

    def sign(self, key, text, count):
        out = ctypes.create_string_buffer(512)
        size = ctypes.c_uint()
        for _ in range(count):
            assert self.crypto.RSA_sign(672, text, 32, out, ctypes.byref(size), key) == 1
        return out.raw[: size.value]

    def check(self, key, text, signed, count):
        for _ in range(count):
            assert self.crypto.RSA_verify(672, text, 32, signed, len(signed), key) == 1


def factors(key):
    """The primes of a key, from its exponents."""
    rest = key.public * key.private - 1
    twos = (rest & -rest).bit_length() - 1
    for base in range(2, 100):
        root = pow(base, rest >> twos, key.modulus)
        for _ in range(twos):
            square = root * root % key.modulus
            if square == 1 and root not in (1, key.modulus - 1):
                first = greatest(root - 1, key.modulus)
                return max(first, key.modulus // first), min(first, key.modulus // first)
            root = square
    raise ValueError


def greatest(a, b):
    """The greatest common divisor."""
    while b:
        a, b = b, a % b
    return a


def processor(work):
    """The time of the processor that this process and those that it ran took."""
    before = sum(time_of())
    work()
    return sum(time_of()) - before


def time_of():
    import resource

    for who in (resource.RUSAGE_SELF, resource.RUSAGE_CHILDREN):
        used = resource.getrusage(who)
        yield used.ru_utime + used.ru_stime


def least_times(works, rounds=40):
    """The least time of each, taken in turn so many times: short works find the processor undisturbed more often."""
    taken = [[processor(work) for work in works] for _ in range(rounds)]
    return [min(column) for column in zip(*taken)]


def times():
    library = Library()
    print("bits  work   ours/ms  openssl/ms  without primes/ms  ratio  without primes")
    for bits in (2048, 3072, 4096):
        key = Key(bits)
        text = digest("times")
        good = key.sign(text)
        whole, bare = library.key(key, True), library.key(key, False)
        assert library.sign(whole, text, 1) == library.sign(bare, text, 1) == good
        # the same lines with a number that is refused before any product
        refused = f"check {text.hex()} {'ff' * key.size}"
        for work, line, count in (("sign", f"sign {text.hex()}", 20), ("check", f"check {text.hex()} {good.hex()}", 1000)):
            theirs = library.sign if work == "sign" else lambda k, t, n: library.check(k, t, good, n)
            works = (
                *(lambda given=given: answers([key.line()] + [given] * count) for given in (refused, line)),
                *(lambda known=known: theirs(known, text, count) for known in (whole, bare)),
            )
            base, whole_time, fast, slow = (least / count for least in least_times(works))
            ours = whole_time - base
            print(f"{bits}  {work:5}  {ours * 1e3:7.3f}  {fast * 1e3:10.3f}  {slow * 1e3:17.3f}  {ours / fast:5.2f}  {ours / slow:5.2f}")


if __name__ == "__main__":
    {"lines": store, "vectors": vectors, "times": times}[sys.argv[1]](*(int(word) for word in sys.argv[2:]))
