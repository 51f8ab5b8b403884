#!/usr/bin/env python3
"""A second implementation of the console of a GDOI key server and its members, for comparing reports and journals.

    reference.py WORD.. < SCRIPT                 one run on an empty disk; the report goes to standard output
    reference.py --row FOLDER ROW                compares ROW of a folder of rows (report, status, journal)
    reference.py --rows FOLDER                   all rows of a folder
    reference.py --cases < CASES                 answers a file of cases as crates/case_consoles does
    reference.py --due < CASES                   the same file with the lines `due` that its runs want
    reference.py --drawn N SEED FOLDER           writes N drawn scripts with the words, reports and journals that are due
    reference.py --program PROGRAM FOLDER        runs a program on each row of a folder that has no fault, and compares

It was written from the formats and the RFC alone. A row is NAME.words, NAME.script, NAME.stdout, NAME.case.json (status, line, and which calls of disk,
source and sink fail) and NAME.journal.hex; NAME.journal_in.hex is the journal before, if any. It needs the Python package cryptography.

Workers of a block take their steps in any order. `every_run` makes a run for each order; all else takes the one in which the first worker that can go on does.
"""
import copy, hashlib, hmac, json, os, random, re, subprocess, sys, tempfile
from cryptography.hazmat.primitives.ciphers import Cipher, algorithms, modes

# ---------------------------------------------------------------------------------------------- numbers and ciphers

def n1(n): return bytes([n])
def n2(n): return n.to_bytes(2, 'big')
def n4(n): return n.to_bytes(4, 'big')
def num(octets): return int.from_bytes(octets, 'big')

def sha256(octets): return hashlib.sha256(octets).digest()
def prf(key, octets): return hmac.new(key, octets, hashlib.sha256).digest()

def cbc_seal(key, iv, text):
    e = Cipher(algorithms.AES(key), modes.CBC(iv)).encryptor()
    return e.update(text) + e.finalize()

def cbc_open(key, iv, text):
    d = Cipher(algorithms.AES(key), modes.CBC(iv)).decryptor()
    return d.update(text) + d.finalize()

def phase2_iv(last, message): return sha256(last + message)[:16]

class Draws:
    """Block k is the words 4k to 4k + 3 of ChaCha20 (seed 8 octets, 23 zero octets, stream 1), each big-endian."""
    def __init__(self, seed, stream):
        key = seed.to_bytes(8, 'big') + bytes(23) + n1(stream)
        self.stream = Cipher(algorithms.ChaCha20(key, bytes(16)), mode=None).encryptor()
        self.place = 0

    def draw(self):
        little = self.stream.update(bytes(16))
        self.place += 1
        return b''.join(little[i:i + 4][::-1] for i in range(0, 16, 4))

def high(block): return n1(block[0] | 0x80) + block[1:4]        # four octets, the highest bit set

# ------------------------------------------------------------------------------------------------- the test signer

SIGN_KIND = (128, 256)                                          # algorithm, bits
def sign(digest): return prf(b'gdoi test signer', digest)

# --------------------------------------------------------------------------------------------- payloads as written

SA, ID, HASH, SIG, NONCE, SAK, SAT, KD, SEQ, GAP = 1, 5, 8, 9, 10, 15, 16, 17, 18, 22
PULL, PUSH = 32, 33

def header(cookies, first, exchange, message, size):
    return cookies + n1(first) + b'\x10' + n1(exchange) + b'\x01' + message + n4(28 + size)

def payload(next_, body): return n1(next_) + b'\0' + n2(4 + len(body)) + body
def short(kind, number): return n2(0x8000 | kind) + n2(number)
def long(kind, value): return n2(kind) + n2(len(value)) + value
def padded(text): return text + bytes(-len(text) % 16)
def identity(port, address): return b'\x01' + n2(port) + b'\x04' + bytes.fromhex(address)

def sak(next_, spi, kind=SIGN_KIND):
    return payload(next_, n1(17) + identity(848, 'c0000201') + identity(848, 'e9fc0001') + spi + bytes(4)
        + short(1, 1) + short(2, 3) + short(3, 128) + long(4, n4(86400)) + short(5, 3)
        + short(6, kind[0]) + short(7, kind[1]))

def sat(spi):
    return payload(0, n1(1) + n1(17) + identity(0, 'c0000201') + identity(0, 'e9fc0001') + n1(12) + spi
        + short(1, 1) + long(2, n4(3600)) + short(4, 1) + short(5, 5) + short(6, 128))

def sa_body(kek_spi, tek_spi, kind=SIGN_KIND):
    parts = (sak(SAT if tek_spi else 0, kek_spi, kind) if kek_spi else b'') + (sat(tek_spi) if tek_spi else b'')
    return n4(2) + n4(0) + n2(SAK if kek_spi else SAT) + n2(0) + parts

def packet(kind, spi, attributes):
    return n1(kind) + b'\0' + n2(5 + len(spi) + len(attributes)) + n1(len(spi)) + spi + attributes

def kd_body(*packets): return n2(len(packets)) + n2(0) + b''.join(packets)
def lkh_key(id_, made, data): return n2(id_) + n1(3) + b'\0' + n4(0) + n4(0) + n4(made) + data

def traffic_packet(traffic):
    cipher_key, integrity_key, spi = traffic
    return packet(1, spi, long(1, cipher_key) + long(2, integrity_key))

def update_array(by, gives):
    """Keys are (position, epoch made, IV, key)."""
    sealed = cbc_seal(by[3], by[2], gives[2] + gives[3])
    return n1(1) + n2(1) + b'\0' + n2(by[0]) + n2(0) + n4(by[1]) + lkh_key(gives[0], gives[1], sealed)

def download_array(path):
    return n1(1) + n2(len(path)) + b'\0' + b''.join(lkh_key(i, made, iv + key) for i, made, iv, key in path)

# ------------------------------------------------------------------------------------------------ payloads as read

class Malformed(Exception): pass

def check(holds):
    if not holds: raise Malformed

class Octets:
    """Takes fields from the front of a text."""
    def __init__(self, text): self.text, self.at = text, 0
    def left(self): return len(self.text) - self.at
    def take(self, n):
        check(self.left() >= n)
        self.at += n
        return self.text[self.at - n:self.at]
    def number(self, n): return num(self.take(n))
    def rest(self): return self.take(self.left())

def read_header(datagram, exchange):
    check(28 <= len(datagram) <= 65507)
    check(datagram[17] == 0x10 and datagram[18] == exchange and datagram[19] == 1)
    check((num(datagram[20:24]) == 0) == (exchange == PUSH))
    check(num(datagram[24:28]) == len(datagram) and len(datagram) > 28 and (len(datagram) - 28) % 16 == 0)
    return datagram[:16], datagram[16], datagram[20:24]

def read_chain(first, due, text):
    """The payloads of these kinds, each with its generic header, and zero padding."""
    parts, kind, of = [], first, Octets(text)
    for want in due:
        check(kind == want and of.left() >= 4)
        start = of.at
        kind, reserved, length = of.number(1), of.number(1), of.number(2)
        check(reserved == 0 and length >= 4)
        of.take(length - 4)
        parts.append(text[start:of.at])
    check(kind == 0 and of.left() < 16 and not any(of.rest()))
    return parts

ANY = None
KEK_TABLE = {1: [1], 2: [3], 3: [128], 4: ANY, 5: [3], 6: 'short', 7: 'short'}
TEK_TABLE = {1: [1], 2: ANY, 4: [1, 2], 5: [5], 6: [128]}

def read_attributes(text, table):
    of, found = Octets(text), {}
    while of.left():
        kind = of.number(2)
        is_short, kind = kind >= 0x8000, kind & 0x7fff
        check(kind in table and kind not in found and (is_short or table[kind] is ANY))
        if not is_short: check(of.number(2) == 4)
        found[kind] = of.number(2 if is_short else 4)
        if isinstance(table[kind], list): check(found[kind] in table[kind])
    check(len(found) == len(table))
    return found

def skip_identity(of):
    of.take(3)
    of.take(of.number(1))

def read_sa(body):
    """(SPI, kind of signature) of a SAK or None, SPI of a SAT or None."""
    of, kek, tek = Octets(body), None, None
    check(of.number(4) == 2 and of.number(4) == 0)
    kind = of.number(2)
    check(kind in (SAK, SAT) and of.number(2) == 0)
    while kind:
        next_, reserved, length = of.number(1), of.number(1), of.number(2)
        check(next_ in ((SAT, 0) if kind == SAK else (0,)) and reserved == 0 and length >= 4)
        part = Octets(of.take(length - 4))
        if kind == SAT: check(part.number(1) == 1)
        part.take(1)
        skip_identity(part); skip_identity(part)
        if kind == SAK:
            spi = part.take(16)
            check(part.number(4) == 0)
            found = read_attributes(part.rest(), KEK_TABLE)
            kek = spi, (found[6], found[7])
        else:
            check(part.number(1) == 12)
            tek = part.take(4)
            read_attributes(part.rest(), TEK_TABLE)
        kind = next_
    check(of.left() == 0)
    return kek, tek

def read_keys(of, count):
    keys = []
    for _ in range(count):
        id_, kind, reserved = of.number(2), of.number(1), of.number(1)
        check(id_ != 0 and kind == 3 and reserved == 0)
        of.take(8)
        keys.append((id_, of.number(4), of.take(32)))
    check(of.left() == 0)
    return keys

def read_tek_packet(text):
    of, found = Octets(text), {}
    check(of.number(1) == 4)
    spi = of.take(4)
    while of.left():
        kind, length = of.number(2), of.number(2)
        check(kind in (1, 2) and kind not in found and length == 16 * kind)
        found[kind] = of.take(length)
    check(len(found) == 2)
    return found[1], found[2], spi

def read_lkh_packet(text):
    """(SPI, download array or None, update arrays)."""
    of, download, updates = Octets(text), None, []
    check(of.number(1) == 16)
    spi = of.take(16)
    while of.left():
        kind, length = of.number(2), of.number(2)
        if kind & 0x7fff == 3:                                   # a signature key is skipped
            if kind < 0x8000: of.take(length)
            continue
        check(kind in (1, 2))
        array = Octets(of.take(length))
        check(array.number(1) == 1)
        count = array.number(2)
        check(array.number(1) == 0)
        if kind == 1:
            check(download is None and not updates and 2 <= count <= 16)
            download = read_keys(array, count)
            ids = [k[0] for k in download]
            check(ids[-1] == 1 and all(b == a // 2 for a, b in zip(ids, ids[1:])))
        else:
            check(download is None and count >= 1)
            by = array.number(2)
            check(by != 0 and array.number(2) == 0)
            updates.append((by, array.number(4), read_keys(array, count)))
    if updates:
        given = [k for _, _, keys in updates for k in keys]
        check(len({made for _, made, _ in given}) == 1 and any(k[0] == 1 for k in given))
    check(download or updates)
    return spi, download, updates

def read_kd(body):
    """'traffic' with the traffic key, 'membership' with SPI and arrays, or 'reply' with traffic key, SPI and path."""
    of = Octets(body)
    count = of.number(2)
    check(count in (1, 2) and of.number(2) == 0)
    packets = []
    for _ in range(count):
        kind, reserved, length = of.number(1), of.number(1), of.number(2)
        check(reserved == 0 and length >= 4)
        packets.append((kind, of.take(length - 4)))
    check(of.left() == 0)
    kinds = [kind for kind, _ in packets]
    if kinds == [1]: return 'traffic', read_tek_packet(packets[0][1])
    if kinds == [3]:
        spi, download, updates = read_lkh_packet(packets[0][1])
        check(updates)
        return 'membership', spi, updates
    check(kinds == [1, 3])
    traffic = read_tek_packet(packets[0][1])
    spi, download, _ = read_lkh_packet(packets[1][1])
    check(download)
    return 'reply', traffic, spi, download

# -------------------------------------------------------------------------------------------------- pull messages

def pull_text(phase, message, iv, payloads):
    """payloads: the row behind the HASH, as (kind, whole payload); `hashed` is what the HASH covers."""
    first, hashed, row = payloads
    text = padded(payload(first, prf(phase['skeyid_a'], hashed)) + row)
    return header(phase['cookies'], HASH, PULL, message, len(text)) + cbc_seal(phase['key'], iv, text)

def id_payload(group): return payload(0, n1(11) + bytes(3) + group)

def write_first(phase, message, ni, group):
    row = payload(ID, ni) + id_payload(group)
    return pull_text(phase, message, phase2_iv(phase['last'], message), (NONCE, message + row, row))

def write_second(phase, message, iv, ni, nr, kek_spi, tek_spi, kind=SIGN_KIND):
    row = payload(SA, nr) + payload(0, sa_body(kek_spi, tek_spi, kind))
    return pull_text(phase, message, iv, (NONCE, message + ni + row, row))

def write_third(phase, message, iv, ni, nr):
    return pull_text(phase, message, iv, (0, message + ni + nr, b''))

def write_fourth(phase, message, iv, ni, nr, keyed):
    kd = kd_body(traffic_packet(keyed['traffic']), packet(3, keyed['spi'], long(1, download_array(keyed['path']))))
    row = payload(KD, n4(keyed['sequence'])) + payload(0, kd)
    return pull_text(phase, message, iv, (SEQ, message + ni + nr + row, row))

class BadHash(Exception): pass

def open_pull(datagram, phase, iv, dues, message=None):
    """The payloads behind the HASH, and the carried HASH."""
    cookies, first, id_ = read_header(datagram, PULL)
    check(cookies == phase['cookies'] and message in (None, id_))
    text = cbc_open(phase['key'], iv, datagram[28:])
    for due in dues:
        try: parts = read_chain(first, due, text)
        except Malformed: continue
        check(len(parts[0]) == 36)
        return parts[0][4:], parts[1:]
    raise Malformed

def check_hash(phase, carried, hashed):
    if carried != prf(phase['skeyid_a'], hashed): raise BadHash

def read_nonce(whole):
    check(8 <= len(whole) - 4 <= 128)
    return whole[4:]

def read_first(datagram, phase):
    message = datagram[20:24]
    carried, (ni, id_) = open_pull(datagram, phase, phase2_iv(phase['last'], message), [[HASH, NONCE, ID]])
    nonce = read_nonce(ni)
    check(len(id_) >= 8)
    check_hash(phase, carried, message + ni + id_)
    return nonce, id_[4], id_[8:]

def read_second(datagram, phase, message, iv, ni):
    carried, (nr, sa) = open_pull(datagram, phase, iv, [[HASH, NONCE, SA]], message)
    nonce, (kek, tek) = read_nonce(nr), read_sa(sa[4:])
    check(kek and tek)
    check_hash(phase, carried, message + ni + nr + sa)
    return nonce, kek[0]

def read_third(datagram, phase, message, iv, ni, nr):
    carried, gap = open_pull(datagram, phase, iv, [[HASH], [HASH, GAP]], message)
    check_hash(phase, carried, message + ni + nr + b''.join(gap))

def read_fourth(datagram, phase, message, iv, ni, nr, spi):
    carried, (seq, kd) = open_pull(datagram, phase, iv, [[HASH, SEQ, KD]], message)
    check(len(seq) == 8)
    body = read_kd(kd[4:])
    check(body[0] == 'reply' and body[2] == spi)
    check_hash(phase, carried, message + ni + nr + seq + kd)
    path = [(i, made, data[:16], data[16:]) for i, made, data in body[3]]
    return dict(epoch=path[-1][1], sequence=num(seq[4:]), spi=spi, path=path, traffic=body[1])

# ----------------------------------------------------------------------------------------------------------- pushes

def write_push(spi, sequence, kek, sa, kd):
    row = payload(SA, n4(sequence)) + payload(KD, sa) + payload(SIG, kd)
    size = len(row) + 4 + 32
    head = header(spi, SEQ, PUSH, bytes(4), size + -size % 16)
    text = padded(row + payload(0, sign(sha256(b'rekey' + head + row))))
    return head + cbc_seal(kek[3], kek[2], text)

def write_membership(spi, sequence, kek, jobs):
    arrays = b''.join(long(2, update_array(by, gives)) for by, gives in jobs)
    return write_push(spi, sequence, kek, sa_body(spi, None), kd_body(packet(3, spi, arrays)))

def write_traffic(spi, sequence, kek, traffic):
    return write_push(spi, sequence, kek, sa_body(None, traffic[2]), kd_body(traffic_packet(traffic)))

# --------------------------------------------------------------------------------------------------- names of keys

def node(position, made): return 'node', position, made
def traffic_name(epoch): return 'traffic', epoch
def phase_name(member): return 'phase', member
def dotted(name): return 'traffic.%d' % name[1] if name[0] == 'traffic' else '%d.%d' % name[1:]

def derives(have, pairs, goal):
    gives, got, todo = {}, set(have), list(have)
    for by, given in pairs: gives.setdefault(by, []).append(given)
    while todo:
        for given in gives.get(todo.pop(), []):
            if given not in got:
                got.add(given)
                todo.append(given)
    return goal in got

# ---------------------------------------------------------------------------------- the group: its list of batches

def up(position):
    """A position and those above it, up to the root."""
    while position:
        yield position
        position //= 2

class NotDue(Exception): pass

class Group:
    """A head and what its list of batches makes: places, keys by position and epoch, traffic keys by epoch."""
    def __init__(self, depth, name, spi, limit):
        self.depth, self.name, self.spi, self.limit = depth, name, spi, limit
        self.epoch = self.sequence = 0
        self.leaf = {}                          # member -> leaf
        self.made = {}                          # position -> the epoch at which it was last fresh
        self.value = {}                         # (position, epoch made) -> IV, key
        self.traffic = {}                       # epoch -> cipher key, integrity key, SPI
        self.last_wraps = []                    # the wraps of the last epoch

    def head_record(self):
        return b'\0\1' + n1(self.depth) + self.spi + n4(self.limit) + n1(len(self.name)) + self.name

    def room(self): return 1 << self.depth

    def plan(self, changes):
        """What a batch of (is_in, member) makes: places, fresh positions, positions to draw, who stayed."""
        names = [member for _, member in changes]
        if len(set(names)) != len(names): raise NotDue
        leaf, touched = dict(self.leaf), set()
        for is_in, member in changes:
            if not is_in:
                if member not in leaf: raise NotDue
                touched.add(leaf.pop(member))
        taken = set(leaf.values())
        free = (x for x in range(self.room(), 2 * self.room()) if x not in taken)
        for is_in, member in changes:
            if is_in:
                x = next(free, None)
                if member in self.leaf or x is None: raise NotDue
                leaf[member] = x
                touched.add(x)
        fresh = {1}.union(*(up(x) for x in touched))
        settled = {1}.union(*(up(x) for x in leaf.values()))
        stayed = [self.leaf[m] for m in self.leaf if m not in names]
        return dict(leaf=leaf, fresh=fresh, draw=sorted(fresh & settled), stayed=stayed)

    def apply(self, changes, plan, nodes, traffic):
        self.epoch += 1
        e = self.epoch
        for v in plan['fresh']: self.made[v] = e
        for position, iv, key in nodes: self.value[position, e] = iv, key
        self.traffic[e] = traffic
        self.leaf = plan['leaf']
        self.last_wraps = []
        if plan['stayed']:
            self.sequence += 2
            above = set().union(*(up(x) for x in plan['stayed']))       # positions with somebody who stayed below
            for v in sorted(plan['fresh'], reverse=True):
                if v < self.room():
                    self.last_wraps += [(node(c, self.made[c]), node(v, e)) for c in (2 * v, 2 * v + 1) if c in above]
            self.last_wraps.append((node(1, e), traffic_name(e)))

    def key(self, name):
        _, position, made = name
        return (position, made) + self.value[position, made]

    def pair(self):
        """The two pushes of the last epoch, as [(number, octets), ..]; empty where nobody stayed."""
        if not self.last_wraps: return []
        e, s = self.epoch, self.sequence
        jobs = [(self.key(by), self.key(gives)) for by, gives in self.last_wraps[:-1]]
        return [(s - 1, write_membership(self.spi, s - 1, self.key(node(1, e - 1)), jobs)),
                (s, write_traffic(self.spi, s, self.key(node(1, e)), self.traffic[e]))]

    def keyed(self, member):
        path = [self.key(node(v, self.made[v])) for v in up(self.leaf[member])]
        return dict(epoch=self.epoch, sequence=self.sequence, spi=self.spi, path=path, traffic=self.traffic[self.epoch])

    def reply_names(self, member):
        return [node(v, self.made[v]) for v in up(self.leaf[member])] + [traffic_name(self.epoch)]

    def record(self, changes, plan, nodes, traffic):
        return (b'\1\1' + n4(self.epoch + 1) + n4(self.sequence + (2 if plan['stayed'] else 0)) + n1(len(changes))
            + b''.join(n1(is_in) + n1(len(m)) + m for is_in, m in changes)
            + n2(len(nodes)) + b''.join(n2(v) + iv + key for v, iv, key in nodes) + b''.join(traffic))

NAME = re.compile(rb'[a-z0-9_]{1,32}\Z')

def read_head(body):
    of = Octets(body)
    check(of.number(1) == 0 and of.number(1) == 1)
    depth, spi, limit, size = of.number(1), of.take(16), of.number(4), of.number(1)
    check(1 <= depth <= 9 and limit != 0 and 1 <= size <= 32)
    name = of.take(size)
    check(of.left() == 0)
    return Group(depth, name, spi, limit)

def read_batch(group, body):
    """Applies a batch record to the group, where it is due."""
    of, changes, nodes = Octets(body), [], []
    check(of.number(1) == 1 and of.number(1) == 1)
    epoch, sequence, count = of.number(4), of.number(4), of.number(1)
    check(epoch == group.epoch + 1 <= group.limit and count <= 32)
    for _ in range(count):
        is_in, size = of.number(1), of.number(1)
        member = of.take(size)
        check(is_in in (0, 1) and NAME.match(member))
        changes.append((is_in, member))
    for _ in range(of.number(2)): nodes.append((of.number(2), of.take(16), of.take(16)))
    traffic = of.take(16), of.take(32), of.take(4)
    check(of.left() == 0 and traffic[2][0] & 0x80)
    try: plan = group.plan(changes)
    except NotDue: raise Malformed
    check([v for v, _, _ in nodes] == plan['draw'])
    check(sequence == group.sequence + (2 if plan['stayed'] else 0) and sequence <= group.limit)
    group.apply(changes, plan, nodes, traffic)

# ------------------------------------------------------------------------------------------------ disk and journal

class Failed(Exception): pass

class Schedule:
    def __init__(self, fails): self.fails, self.calls = set(fails), 0
    def call(self):
        self.calls += 1
        if self.calls in self.fails: raise Failed

class Disk:
    def __init__(self, image=b'', fails=()):
        self.image, self.synced, self.unsynced, self.schedule = bytearray(image), bytes(image), [], Schedule(fails)

    def read(self):
        self.schedule.call()
        return bytes(self.image)

    def write(self, at, octets):
        self.schedule.call()
        assert at <= len(self.image)
        self.image[at:at + len(octets)] = octets
        self.unsynced.append((at, bytes(octets)))

    def cut(self, to):
        self.schedule.call()
        del self.image[to:]
        self.unsynced.append((to, None))

    def sync(self):
        self.schedule.call()
        self.synced, self.unsynced = bytes(self.image), []

    def crashed(self, choice):
        """Of what was not synced: nothing, all, the first, half of each, 0xff, the last, 0, octets drawn by the choice."""
        image, pending = bytearray(self.synced), self.unsynced
        for at, octets in {0: [], 2: pending[:1], 5: pending[-1:]}.get(choice % 8, pending):
            if octets is None: del image[at:]; continue
            size = len(octets)
            octets = {3: octets[:size // 2], 4: b'\xff' * size, 6: bytes(size), 7: chance(choice, at, size)}.get(choice % 8, octets)
            image[at:at + len(octets)] = octets
        return Disk(image)

def chance(seed, stream, size):
    """Octets of ChaCha8 (words of 32 bits, a block counter and a stream of 64 bits each), whose key is made of the seed by PCG32."""
    def turned(x, n): return (x << n | x >> 32 - n) & 0xffffffff
    key = []
    for _ in range(8):
        seed = (seed * 6364136223846793005 + 11634580027462260723) % 2**64
        key.append(turned((seed >> 18 ^ seed) >> 27 & 0xffffffff, -(seed >> 59) % 32))
    def block(count):
        words = [0x61707865, 0x3320646e, 0x79622d32, 0x6b206574, *key, count, 0, stream % 2**32, stream >> 32]
        x = words[:]
        for k in range(32):                                     # four double rounds: columns, then diagonals
            i, turn = k % 4, k // 4 % 2
            a, b, c, d = i, 4 + (i + turn) % 4, 8 + (i + 2 * turn) % 4, 12 + (i + 3 * turn) % 4
            for p, q, r, n in ((a, b, d, 16), (c, d, b, 12), (a, b, d, 8), (c, d, b, 7)):
                x[p] = (x[p] + x[q]) & 0xffffffff
                x[r] = turned(x[r] ^ x[p], n)
        return b''.join(((u + v) & 0xffffffff).to_bytes(4, 'little') for u, v in zip(x, words))
    return b''.join(block(count) for count in range(-(-size // 64)))[:size]

MAGIC = b'GDOIJRNL'

class NotAJournal(Exception):
    def __init__(self, at): self.at = at

def format_journal(disk):
    disk.cut(0); disk.write(0, b'\0'); disk.sync()
    disk.write(1, MAGIC + b'\0'); disk.sync()
    disk.write(0, b'\1'); disk.sync()
    return 9

def append(disk, gate, body):
    """Gives the place of the new clear commit mark."""
    disk.write(gate + 1, n4(len(body)) + body + b'\0'); disk.sync()
    disk.write(gate, b'\1'); disk.sync()
    return gate + 5 + len(body)

def open_journal(disk):
    """The group of a disk, and the place of the clear commit mark."""
    disk.sync()
    image = disk.read()
    if image[:1] != b'\1' or image[1:9] != MAGIC: raise NotAJournal(0)
    group, gate = None, 9
    while True:
        if gate >= len(image): raise NotAJournal(gate)
        if image[gate] != 1:
            if group is None: raise NotAJournal(gate)
            return group, gate
        try:
            of = Octets(image[gate + 1:])
            length = of.number(4)
            check(length <= 65536)
            body = of.take(length)
            if group is None: group = read_head(body)
            else: read_batch(group, body)
        except Malformed:
            raise NotAJournal(gate)
        gate += 5 + length

# ------------------------------------------------------------------------------------------------------ the server

class Refused(Exception): pass

def refuse(why): raise Refused(why)

SECOND, FOURTH, QUEUED = 'second', 'fourth', 'queued'

class Server:
    """Answers are ('second', octets), ('fourth', octets, names) or ('queued',)."""
    def __init__(self, disk, draws):
        self.disk, self.draws = disk, draws
        self.rules, self.phases, self.sessions, self.queue, self.need = [], {}, {}, [], False

    def create(self, depth, name, limit):
        self.group = Group(depth, name, self.draws.draw(), limit)
        try: self.gate = append(self.disk, format_journal(self.disk), self.group.head_record())
        except Failed: refuse('disk-fault')

    def open(self):
        try: self.group, self.gate = open_journal(self.disk)
        except Failed: refuse('disk-fault')
        except NotAJournal as e: refuse('not-a-journal %d' % e.at)

    def reopen(self):
        try: self.open()
        except Refused:
            self.need = True
            raise
        self.need, self.queue, self.sessions = False, [], {}

    def introduce(self, phase):
        if phase['cookies'] in self.phases or any(p['member'] == phase['member'] for p in self.phases.values()):
            refuse('phase-taken')
        if len(self.phases) >= 1024: refuse('phase-full %d' % len(self.phases))
        self.phases[phase['cookies']] = phase

    def judge(self, member):
        for number, (allow, pattern) in enumerate(self.rules, 1):
            if pattern == member or pattern.endswith(b'*') and member.startswith(pattern[:-1]):
                if not allow: refuse('denied %d' % number)
                return
        refuse('denied 0')

    def pending(self, member): return any(m == member for _, m in self.queue)

    def not_pending(self, member):
        if self.pending(member): refuse('already-pending')

    def room_in_queue(self):
        if len(self.queue) == 32: refuse('batch-full 32')

    def serve(self, datagram):
        if self.need: refuse('needs-reopen')
        try: cookies, _, message = read_header(datagram, PULL)
        except Malformed: refuse('malformed')
        phase = self.phases.get(cookies) or refuse('unknown-peer')
        session = self.sessions.get(cookies)
        if session and datagram == session['last']: return session['kept']
        same = session and session['message'] == message
        if same and session['state'] != 'third': refuse('wrong-step')
        try: return self.third(phase, session, datagram) if same else self.first(phase, message, datagram)
        except Malformed: refuse('malformed')
        except BadHash: refuse('bad-hash')

    def first(self, phase, message, datagram):
        ni, id_type, id_ = read_first(datagram, phase)
        if id_type != 11 or id_ != self.group.name: refuse('wrong-group')
        self.judge(phase['member'])
        self.not_pending(phase['member'])
        nr = self.draws.draw()
        g = self.group
        tek_spi = g.traffic[g.epoch][2] if g.epoch else bytes(4)
        answer = SECOND, write_second(phase, message, datagram[-16:], ni, nr, g.spi, tek_spi)
        self.sessions[phase['cookies']] = dict(message=message, ni=ni, nr=nr, iv=answer[1][-16:], state='third',
                                               last=datagram, kept=answer)
        return answer

    def third(self, phase, session, datagram):
        member = phase['member']
        read_third(datagram, phase, session['message'], session['iv'], session['ni'], session['nr'])
        self.judge(member)
        self.not_pending(member)
        if member not in self.group.leaf:
            leaving = sum(not is_in for is_in, _ in self.queue)
            if len(self.group.leaf) - leaving + len(self.queue) - leaving == self.group.room():
                refuse('tree-full %d' % self.group.room())
            self.room_in_queue()
            self.queue.append((1, member))
            session.update(state='queued', last=datagram, kept=(QUEUED,))
        else:
            session.update(state='done', last=datagram)
            session['kept'] = self.fourth(phase, session)
        return session['kept']

    def fourth(self, phase, session):
        member = phase['member']
        return FOURTH, write_fourth(phase, session['message'], session['last'][-16:], session['ni'], session['nr'],
                                    self.group.keyed(member)), self.group.reply_names(member)

    def leave(self, member):
        if self.need: refuse('needs-reopen')
        if member not in self.group.leaf: refuse('not-member')
        self.not_pending(member)
        self.room_in_queue()
        self.queue.append((0, member))

    def batch(self):
        """The replies, as [(member, answer), ..]."""
        g, draw = self.group, self.draws.draw
        if self.need: refuse('needs-reopen')
        if g.epoch == g.limit: refuse('spent epoch %d' % g.epoch)
        plan = g.plan(self.queue)
        if plan['stayed'] and g.sequence + 2 > g.limit: refuse('spent sequence %d' % g.sequence)
        nodes = [(v, draw(), draw()) for v in plan['draw']]
        traffic = draw(), draw() + draw(), high(draw())
        try: self.gate = append(self.disk, self.gate, g.record(self.queue, plan, nodes, traffic))
        except Failed:
            self.need = True
            refuse('disk-fault')
        g.apply(self.queue, plan, nodes, traffic)
        joined, self.queue, replies = [m for is_in, m in self.queue if is_in], [], []
        by_member = {p['member']: p for p in self.phases.values()}
        for member in joined:
            session = self.sessions[by_member[member]['cookies']]
            session.update(state='done', kept=self.fourth(by_member[member], session))
            replies.append((member, session['kept']))
        return replies

# ----------------------------------------------------------------------------------------------------- the members

class Store:
    def __init__(self, keyed): self.put(keyed)

    def put(self, keyed):
        self.path, self.traffic, self.spi = list(keyed['path']), keyed['traffic'], keyed['spi']
        self.traffic_epoch, self.last = keyed['epoch'], keyed['sequence']

    def root(self): return self.path[-1]
    def root_epoch(self): return self.path[-1][1]

    def renew(self, keyed):
        """The two numbers of a reply that is older, or None."""
        got, epoch = keyed['sequence'], keyed['epoch']
        if got < self.last or got == self.last and epoch < self.root_epoch(): return self.last, got
        self.put(keyed)

    def accept(self, datagram):
        """('root', epoch) or ('traffic', epoch)."""
        try: cookies, first, _ = read_header(datagram, PUSH)
        except Malformed: refuse('malformed')
        if cookies != self.spi: refuse('other-spi')
        try: row, sequence, body, signature = self.open(datagram, first)
        except Malformed: refuse('malformed')
        if signature != sign(sha256(b'rekey' + datagram[:28] + row)): refuse('bad-signature')
        if sequence <= self.last: refuse('stale %d %d' % (self.last, sequence))
        if body[0] == 'traffic':
            self.traffic, self.traffic_epoch, self.last = body[1], self.root_epoch(), sequence
            return 'traffic', self.traffic_epoch
        taken = self.closure(body[2])
        if 1 not in taken: refuse('no-path %d' % self.path[0][0])
        self.path = [taken.get(key[0], key) for key in self.path]
        self.last = sequence
        return 'root', self.root_epoch()

    def open(self, datagram, first):
        _, _, iv, key = self.root()
        parts = read_chain(first, [SEQ, SA, KD, SIG], cbc_open(key, iv, datagram[28:]))
        seq, sa, kd, sig = parts
        check(len(seq) == 8 and 5 <= len(sig) <= 516)
        (kek, tek), body = read_sa(sa[4:]), read_kd(kd[4:])
        if kek and not tek: check(kek == (self.spi, SIGN_KIND) and body[0] == 'membership' and body[1] == self.spi)
        else: check(tek and not kek and body[0] == 'traffic' and body[1][2] == tek)
        return b''.join(parts[:3]), num(seq[4:]), body, sig[4:]

    def closure(self, arrays):
        """Each given key whose wrapping key is held and that is on the path, the first in the text first."""
        jobs, taken = [], {}
        for by, by_made, keys in arrays:
            for id_, made, sealed in keys:
                jobs.append(((by, by_made), (id_, made), sealed))
                by, by_made = id_, made
        own = {key[:2]: key for key in self.path}
        places = {key[0] for key in self.path}
        while True:
            for by, (id_, made), sealed in jobs:
                held = {k[:2]: k for k in taken.values()}.get(by) or own.get(by)
                if held and id_ in places and id_ not in taken:
                    data = cbc_open(held[3], held[2], sealed)
                    taken[id_] = id_, made, data[:16], data[16:]
                    break
            else: return taken

class Member:
    """A member's phase 1 SA, its pull, its last datagram and its store."""
    def __init__(self, name, peers):
        self.name, self.peers = name, peers
        draw = peers.draw
        self.phase = dict(member=name, cookies=draw(), skeyid_a=draw() + draw(), key=draw(), last=draw())
        self.introduced = self.lose = False
        self.sent = self.store = self.pull = None

    def begin(self, group):
        message, ni = high(self.peers.draw()), self.peers.draw()
        self.sent = write_first(self.phase, message, ni, group)
        self.pull = dict(waits=SECOND, message=message, ni=ni, iv=self.sent[-16:])

    def second(self, datagram):
        """Whether the pull goes on with a third message."""
        p = self.pull
        if p['waits'] != SECOND: return False
        try: nr, spi = read_second(datagram, self.phase, p['message'], p['iv'], p['ni'])
        except (Malformed, BadHash): return False
        self.sent = write_third(self.phase, p['message'], datagram[-16:], p['ni'], nr)
        p.update(waits=FOURTH, nr=nr, spi=spi, iv=self.sent[-16:])
        return True

    def fourth(self, datagram):
        """What a fourth message brings, or None where the pull refuses it."""
        p = self.pull
        if p['waits'] != FOURTH: return None
        try: keyed = read_fourth(datagram, self.phase, p['message'], p['iv'], p['ni'], p['nr'], p['spi'])
        except (Malformed, BadHash): return None
        p['waits'] = None
        return keyed

# ------------------------------------------------------------------------------------------------- words and lines

def read_words(words):
    """The numbers by name, or None."""
    found, words = {}, list(words)
    limits = {'new': (1, 9), 'workers': (1, 16), 'seed': (0, 2**64 - 1), 'limit': (1, 2**32 - 1)}
    while words:
        m = re.fullmatch(r'--(new|open|workers|seed|limit)(?:=([0-9]{1,20}))?', words.pop(0))
        if not m or m[1] in found: return None
        name, digits = m.groups()
        if name == 'open':
            if digits is not None: return None
            found[name] = True
            continue
        if digits is None:
            if not words or not re.fullmatch(r'[0-9]{1,20}', words[0]): return None
            digits = words.pop(0)
        if not limits[name][0] <= int(digits) <= limits[name][1]: return None
        found[name] = int(digits)
    return found if ('new' in found) != ('open' in found) else None

PATTERN = re.compile(rb'(?:[a-z0-9_]{1,32}\*?|\*)\Z')

def number(word):
    if not re.fullmatch(rb'[0-9]{1,10}', word) or int(word) > 2**32 - 1: raise ValueError
    return int(word)

def name(word):
    if not NAME.match(word): raise ValueError
    return word

def read_line(text):
    """[word, argument ..], [] for a line that does nothing, None for a faulty one."""
    words = [w for w in text.split(b' ') if w]
    if not words or words[0][:1] == b'#': return []
    word, rest = words[0].decode('latin-1'), words[1:]
    try:
        if word in ('batch', 'deliver-all', 'halt', 'reopen', 'show', 'now', 'together', 'end'): return [word] if not rest else None
        if word in ('allow', 'deny'): return [word, rest[0]] if len(rest) == 1 and PATTERN.match(rest[0]) else None
        if word in ('join', 'again', 'lose', 'leave', 'key'): return [word, name(*rest)]
        if word == 'deliver': return [word, name(rest[0]), number(rest[1])] if len(rest) == 2 else None
        if word == 'derive':
            return [word, number(rest[0]), [name(w) for w in rest[1:]]] if 2 <= len(rest) <= 9 else None
    except (ValueError, TypeError): pass
    return None

# ----------------------------------------------------------------------------------------------------- the console

class SinkFailed(Exception): pass
class SourceFailed(Exception): pass
class FaultyLine(Exception): pass

class Sink:
    def __init__(self, fails=()): self.octets, self.schedule = bytearray(), Schedule(fails)
    def put(self, piece):
        try: self.schedule.call()
        except Failed: raise SinkFailed
        self.octets += piece

class Source:
    def __init__(self, text, fails=()): self.text, self.schedule = text, Schedule(fails)
    def take(self, most):
        try: self.schedule.call()
        except Failed: raise SourceFailed
        piece, self.text = self.text[:most], self.text[most:]
        return piece

def lines_of(source):
    """(number, text) of each line; a line past a limit is faulty as soon as the octet past it was taken."""
    count, begun = 1, b''
    while True:
        piece = source.take(4096)
        if not piece:
            if begun: yield count, begun
            return
        for part in re.findall(rb'[^\n]*\n|[^\n]+', piece):
            begun += part
            if count > 16384 or len(begun.rstrip(b'\n')) > 200: raise FaultyLine(count)
            if begun.endswith(b'\n'):
                yield count, begun[:-1]
                count, begun = count + 1, b''

MOST_IN_BLOCK = 512

class Gate:
    """Calls wait here for each other, where so many are due: the number of each call, how many met the others, and whether the first call met the second."""
    def __init__(self, due=0): self.due, self.reached, self.met, self.pair = due, [], 0, False

    def open(self, waiting):
        self.met += len(waiting)
        self.pair |= 1 in waiting and 2 in self.reached

class Choices:
    """Answers which one of some is taken: as it was told, and then the first."""
    def __init__(self, told=()): self.told, self.made = list(told), []

    def __call__(self, count):
        chosen = self.told[len(self.made)] if len(self.made) < len(self.told) else 0
        self.made.append((chosen, count))
        return chosen

    def next(self):
        """The choices after these, None after the last ones."""
        made = self.made[:]
        while made and made[-1][0] + 1 == made[-1][1]: made.pop()
        return Choices([chosen for chosen, _ in made[:-1]] + [made[-1][0] + 1]) if made else None

class Console:
    def __init__(self, words, source, sink, disk, choose=None, gate=None):
        self.words, self.source, self.sink, self.disk = words, source, sink, disk
        self.choose, self.gate = choose or Choices(), gate or Gate()
        self.block = None                       # the number of its line `together`, and its lines so far
        self.kept = None                        # the lines of the report that a block keeps until it is done
        self.members = {}                       # by first use
        self.introduced = []                    # in order of introduction
        self.pushes = {}                        # by number, as sent in this run
        self.pairs, self.replies = [], {}       # what was sent, by names
        self.reopen_calls = None                # calls of the disk before the first line `reopen`

    def say(self, *words):
        text = ' '.join(w.decode() if isinstance(w, bytes) else str(w) for w in words)
        if self.kept is not None: self.kept.append(text)
        else: self.sink.put(text.encode() + b'\n')

    def run(self):
        """Status and line."""
        status, line = 0, 0
        try:
            try: status = self.begun() or self.ran_lines()
            except FaultyLine as e: status, line = 2, e.args[0]
            except SourceFailed: status = 3
            self.say('end', *([2, 'line', line] if status == 2 else [status]))
        except SinkFailed: return 4, 0
        return status, line

    def begun(self):
        """The status where no line is run, else None."""
        asked = read_words(self.words)
        if asked is None: return 1
        seed, self.workers = asked.get('seed', 0), asked.get('workers', 1)
        self.peers = Draws(seed, 1)
        self.server = server = Server(self.disk, Draws(seed, 0))
        if 'new' in asked:
            try: server.create(asked['new'], b'console', asked.get('limit', 2**32 - 1))
            except Refused as e: return self.say('new refused', e) or 6
            self.say('new depth', asked['new'])
        else:
            try: server.open()
            except Refused as e: return self.say('open refused', e) or 6
            self.say('open depth', server.group.depth, *self.epoch_words())
            self.send_pair()

    def ran_lines(self):
        for count, text in lines_of(self.source): self.run_line(count, text)
        if self.block: raise FaultyLine(self.block[0])
        return 0

    def run_line(self, count, text):
        line = read_line(text)
        if line is None: raise FaultyLine(count)
        if not line: return
        if self.block: return self.run_inside(count, line)
        if line[0] == 'end': raise FaultyLine(count)
        if line[0] == 'together': self.block = count, []
        else: getattr(self, 'do_' + line[0].replace('-', '_'))(*line[1:])

    def run_inside(self, count, line):
        _, lines = self.block
        if line[0] == 'end' and lines:
            self.block = None
            return self.run_block(lines)
        if line[0] not in ('join', 'again', 'leave', 'batch', 'now') or len(lines) == MOST_IN_BLOCK: raise FaultyLine(count)
        if line[1:] and line[1:] in [other[1:] for other in lines]: raise FaultyLine(count)
        lines.append(line)

    def run_block(self, lines):
        """What comes before the turns, the turns, what members get after them, and the pairs that were looked at."""
        self.kept = []
        self.say('together', len(lines))
        handed = [line for line in lines if self.is_handed(*line)]
        self.left, self.looked = [], {}
        self.take_turns(handed)
        self.say('together', 'done')
        for member, answer, is_lost in self.left:
            if is_lost: self.say(member.name, 'lost')
            else: self.give_fourth(member, answer)
        for place in sorted(self.looked): self.say('now', *self.looked[place])
        kept, self.kept = self.kept, None
        for text in kept: self.say(text)

    def is_handed(self, word, *name):
        """Whether a worker runs this line: a member whose introduction is refused has no turn, nor has one that sends again and has sent nothing."""
        if word == 'join': return self.begins(*name)
        if word == 'again': return self.has_sent(*name)
        return True

    def take_turns(self, handed):
        """Each worker goes on to its next step, when it is chosen; at the gate it waits for the others, while one of them can go on."""
        steps = [self.steps_of(worker, handed) for worker in range(self.workers)]
        nexts, waiting, gate = [next(its, None) for its in steps], {}, self.gate
        has_turns = any(word != 'now' for word, *_ in handed)
        while any(nexts):
            for worker, what in enumerate(nexts):
                if what == 'gate':
                    nexts[worker] = next(steps[worker])
                    waiting[worker] = gate.reached[-1]
            if len(gate.reached) >= gate.due:
                if gate.due: gate.open(waiting.values())
                waiting.clear()
            able = [worker for worker, what in enumerate(nexts) if what and worker not in waiting]
            if not able: waiting.clear(); continue
            worker = able[self.choose(len(able))] if len(able) > 1 and has_turns else able[0]
            nexts[worker] = next(steps[worker], None)

    def steps_of(self, worker, handed):
        """The lines of a worker, one after the other; before each step it says which one is next."""
        for place in range(worker, len(handed), self.workers):
            word, *name = handed[place]
            if word == 'now':
                yield 'look'
                self.looked[place] = self.epoch_words()[:4]
                continue
            yield 'gate'
            self.gate.reached.append(place + 1)
            if word in ('join', 'again'): yield from self.send_in_turns(self.members[name[0]])
            else:
                yield 'turn'
                getattr(self, 'do_' + word)(*name)

    def send_in_turns(self, member):
        while True:
            yield 'turn'
            try: answer = self.server.serve(member.sent)
            except Refused as e: return self.say(member.name, 'refused', e)
            if answer[0] == QUEUED: return self.say(member.name, 'queued')
            self.say_datagram(member.name, answer)
            if answer[0] == FOURTH: self.sent_reply(member.name, answer)
            is_lost, member.lose = member.lose, False
            if is_lost or answer[0] == FOURTH: return self.left.append((member, answer, is_lost))
            if not member.second(answer[1]): return

    def epoch_words(self):
        g = self.server.group
        return 'epoch', g.epoch, 'sequence', g.sequence, 'members', len(g.leaf)

    def send_pair(self):
        self.pairs += self.server.group.last_wraps
        pair = self.server.group.pair()
        self.pushes.update(pair)
        for sequence, octets in pair: self.say('push', sequence, len(octets), octets.hex())

    def do_allow(self, pattern): self.rule(True, pattern)
    def do_deny(self, pattern): self.rule(False, pattern)
    def rule(self, allow, pattern):
        self.server.rules.append((allow, pattern))
        self.say('rule', len(self.server.rules))

    def do_join(self, name):
        if self.begins(name): self.send(self.members[name])

    def begins(self, name):
        """Whether the member begins a pull: not where its introduction is refused."""
        member = self.members.get(name)
        if not member: member = self.members[name] = Member(name, self.peers)
        if not member.introduced:
            try: self.server.introduce(member.phase)
            except Refused as e: return self.say(name, 'refused', e)
            member.introduced = True
            self.introduced.append(member)
        member.begin(b'console')
        return True

    def do_again(self, name):
        if self.has_sent(name): self.send(self.members[name])

    def has_sent(self, name):
        member = self.members.get(name)
        if not member or not member.sent: return self.say(name, 'nothing')
        return True

    def send(self, member):
        """Sends the member's last datagram, and goes on with what comes back."""
        while True:
            try: answer = self.server.serve(member.sent)
            except Refused as e: return self.say(member.name, 'refused', e)
            if answer[0] == QUEUED: return self.say(member.name, 'queued')
            self.say_datagram(member.name, answer)
            if answer[0] == FOURTH: self.sent_reply(member.name, answer)
            if answer[0] == FOURTH: return self.give_fourth(member, answer)
            if self.lost(member) or not member.second(answer[1]): return

    def say_datagram(self, name, answer): self.say(answer[0], name, len(answer[1]), answer[1].hex())

    def sent_reply(self, name, answer):
        self.replies.setdefault(name, []).extend(answer[2])
        self.pairs += [(phase_name(name), key) for key in answer[2]]

    def lost(self, member):
        if not member.lose: return False
        member.lose = False
        self.say(member.name, 'lost')
        return True

    def give_fourth(self, member, answer):
        if self.lost(member): return
        keyed = member.fourth(answer[1])
        if keyed is None: return
        if member.store is None: member.store, older = Store(keyed), None
        else: older = member.store.renew(keyed)
        if older: self.say(member.name, 'older', *older)
        else: self.say(member.name, 'keyed', keyed['epoch'])

    def do_lose(self, name):
        member = self.members.get(name)
        if not member or not member.introduced: return self.say(name, 'nothing')
        member.lose = True
        self.say(name, 'loses next')

    def do_leave(self, name):
        try: self.server.leave(name)
        except Refused as e: return self.say(name, 'refused', e)
        self.say(name, 'leaving')

    def do_batch(self):
        try: replies = self.server.batch()
        except Refused as e: return self.say('batch refused', e)
        # The whole entry stands before anything else is done; its lines are put one by one.
        for member, answer in replies: self.sent_reply(member, answer)
        self.say(*self.epoch_words())
        for by, gives in self.server.group.last_wraps: self.say('wrap', dotted(by), dotted(gives))
        self.send_pair()
        for member, answer in replies: self.say_datagram(member, answer)
        for member, answer in replies:
            if self.kept is None: self.give_fourth(self.members[member], answer)
            else: self.left.append((self.members[member], answer, False))

    def do_deliver(self, name, sequence):
        member = self.members.get(name)
        if not member or not member.store or sequence not in self.pushes:
            return self.say(name, 'push', sequence, 'nothing')
        self.deliver(member, sequence)

    def deliver(self, member, sequence):
        try: what = member.store.accept(self.pushes[sequence])
        except Refused as e: return self.say(member.name, 'push', sequence, 'refused', e)
        self.say(member.name, 'push', sequence, 'taken', *what)

    def do_deliver_all(self):
        if self.server.need: return self.say('deliver-all refused needs-reopen')
        for member in self.introduced:
            if member.store and member.name in self.server.group.leaf:
                for sequence in sorted(self.pushes):
                    if sequence > member.store.last: self.deliver(member, sequence)

    def do_key(self, name):
        member = self.members.get(name)
        if not member or not member.store: return self.say(name, 'nothing')
        s = member.store
        self.say(name, 'key', s.traffic_epoch, 'sequence', s.last, sha256(s.traffic[0] + s.traffic[1])[:8].hex())

    def do_derive(self, epoch, names):
        have = [phase_name(n) for n in names] + [key for n in names for key in self.replies.get(n, [])]
        self.say('derive', epoch, *names, 'yes' if derives(have, self.pairs, traffic_name(epoch)) else 'none')

    def do_halt(self):
        self.server.need = True
        self.say('halted')

    def do_reopen(self):
        if self.reopen_calls is None: self.reopen_calls = self.disk.schedule.calls
        try: self.server.reopen()
        except Refused as e: return self.say('reopen refused', e)
        self.say('reopened', *self.epoch_words())
        self.send_pair()

    def do_now(self): self.say('now', *self.epoch_words()[:4])

    def do_show(self):
        if self.server.need: return self.say('show refused needs-reopen')
        self.say('group', *self.epoch_words())
        for leaf, member in sorted((x, m) for m, x in self.server.group.leaf.items()): self.say('leaf', leaf, member)

def run(words, script, disk, source_fails=(), sink_fails=(), choose=None, gate=None):
    """Report, status, line, and the console itself."""
    sink = Sink(sink_fails)
    console = Console(words, Source(script, source_fails), sink, disk, choose, gate)
    status, line = console.run()
    return bytes(sink.octets), status, line, console

def every_run(words, script, disk, source_fails=(), sink_fails=(), due=0):
    """What each order of steps gives: report, status, line, console and disk, by turns."""
    choose = Choices()
    while choose:
        left = copy.deepcopy(disk)
        yield *run(words, script, left, source_fails, sink_fails, choose, Gate(due)), left
        choose = choose.next()

# ------------------------------------------------------------------------------------------------------------ rows

def compare_row(folder, row):
    """What differs, as a list of words."""
    def text(end, otherwise=b''):
        path = os.path.join(folder, row + end)
        return open(path, 'rb').read() if os.path.exists(path) else otherwise
    case = json.loads(text('.case.json'))
    disk = Disk(bytes.fromhex(text('.journal_in.hex').decode().strip()), case.get('failing_disk_calls', []))
    report, status, line, _ = run(text('.words').decode().split(), text('.script'), disk,
                                  case.get('failing_source_calls', []), case.get('failing_sink_calls', []))
    differs = []
    if report != text('.stdout'): differs.append('report')
    if (status, line) != (case['status'], case['line']): differs.append('status')
    if bytes(disk.image) != bytes.fromhex(text('.journal.hex').decode().strip()): differs.append('journal')
    return differs

def print_rows(folder, rows):
    wrong = 0
    for row in rows:
        differs = compare_row(folder, row)
        wrong += bool(differs)
        print(row, 'differs in ' + ', '.join(differs) if differs else 'same')
    print('%d rows, %d differ' % (len(rows), wrong))
    return wrong

# ----------------------------------------------------------------------------------------------------------- cases

def told(detail, report, status, line, image):
    """A run as crates/case_consoles tells it."""
    def hashed(what, octets): return '%s %d %s\n' % (what, len(octets), sha256(octets).hex())
    ended = 'status %d line %d\n' % (status, line)
    if detail == 'hashes': return hashed('report', report) + ended + hashed('journal', image)
    text = report.decode()
    if detail == 'outline': text = re.sub(r'(?m)^(push \S+ \S+ ).*$', r'\1#', text)
    return text + ended + 'journal %d %s\n' % (len(image), image.hex() or '-')

class Case:
    """What is said so far of the next run, and each disk that the last one may have left, with how many batches were reported then."""
    def __init__(self, disk):
        self.left, self.gate = [(disk, 0)], None
        self.begin_anew()

    def begin_anew(self): self.words, self.script, self.source, self.sink, self.due = [], b'', [], [], []

    def run(self):
        """Each outcome once: how many batches were reported before it, report, status, line and disk."""
        found = {}
        for disk, before in self.left:
            for report, status, line, console, left in every_run(self.words, self.script, disk, self.source, self.sink, self.gate or 0):
                self.passed = console.gate                      # (whatever the order was, it is told alike)
                found[before, report, status, line, bytes(left.image), left.synced, repr(left.unsynced)] = before, report, status, line, left
        self.begin_anew()
        self.left = [(left, report.count(b'\nepoch ')) for _, report, _, _, left in found.values()]
        return list(found.values())

    def told_gate(self):
        gate = self.passed
        numbers = ''.join(' %d' % it for it in sorted(set(gate.reached)))
        return 'reached%s calls %d met %d first %s\n' % (numbers, len(gate.reached), gate.met, 'met' if gate.pair else 'apart')

    def crash(self, choice): self.left = [(disk.crashed(choice), batches) for disk, batches in self.left]

def told_so(detail, before, report, status, line, left):
    """An outcome as crates/case_consoles tells it in this detail."""
    if detail == 'batches':
        refused = report.count(b'\nbatch refused ')
        return 'batches %d refused %d\nstatus %d line %d\n' % (report.count(b'\nepoch '), refused, status, line)
    if detail == 'kept':
        opened = re.match(rb'open depth \d+ epoch (\d+) ', report)
        return 'kept\n' if opened and 0 <= int(opened[1]) - before <= 1 else 'lost\n'
    return told(detail, report, status, line, bytes(left.image))

def hashes_due(outcomes):
    return sorted({sha256(told_so('octets', *it).encode()).hex() for it in outcomes})

def answer_cases(lines):
    """The answers to a file of cases, and the file with the lines `due` that its runs want."""
    out, asked, case = [], [], Case(Disk())
    for line in lines:
        line = line.rstrip('\n')
        word, *rest = line.split() or ['']
        if word == 'run' and rest[0] == 'due':
            given, outcomes = case.due, case.run()
            due = hashes_due(outcomes)
            out.append('due\n' if given == due else 'not due\n')
            asked += ['due %s' % it for it in due]
        elif word == 'run':
            answers = {told_so(rest[0], *it) for it in case.run()}
            assert len(answers) == 1, (line, answers)            # whatever the order was
            out.append(answers.pop())
        elif line.startswith('> '): case.script += line[2:].encode() + b'\n'
        elif word == 'case': case = Case(Disk()); out.append('case %s\n' % rest[0])
        elif word == 'faults': case.left = [(Disk(fails=map(int, rest)), 0)]
        elif word == 'disk': case.left = [(Disk(bytes.fromhex(rest[0].replace('-', ''))), 0)]
        elif word in ('source', 'sink'): setattr(case, word, list(map(int, rest)))
        elif word == 'words': case.words = rest
        elif word == 'gate': case.gate = int(rest[0])            # the calls that wait, and how often each of them looks
        elif word == 'due': case.due.append(rest[0])
        elif word == 'crash': case.crash(int(rest[0]))
        elif word == 'reached': out.append(case.told_gate())
        elif word == 'trial': out.append('trial %s holds\n' % rest[0])      # of the program itself
        else: raise ValueError(line)
        if word != 'due': asked.append(line)
    return ''.join(out), ''.join(line + '\n' for line in asked)

# --------------------------------------------------------------------------------------------------- drawn scripts

FAULTY = ['join A', 'batch x', 'deliver a0', 'derive 1', 'jump', 'show\t', 'leave', 'key a0 a1', 'derive 4294967296 a0',
          'join ' + 33 * 'a', 'now 1', 'end', 'together x', 'derive 1 a a a a a a a a a', 'allow', 'deny a**', 'deliver a0 1 2', '# ' + 199 * 'x']
IDLE = ['', '  ', '# batch', '  #', '#batch \t\r', ' batch ', '  show', 'deliver-all  ']

def drawn_lines(rng, console, count):
    """Lines of a script that mostly keeps a group going; the console that is handed in runs them without a fault."""
    group, members = lambda: console.server.group, console.members
    room = 1 << group().depth
    pool = ['%s%d' % (letter, k) for letter in 'ab' for k in range(room // 2 + 2)]
    def one(): return rng.choice(pool)
    def present(): return rng.choice([m.decode() for m in sorted(group().leaf)] or pool) if rng.random() < 0.8 else one()
    def known(): return rng.choice([m.decode() for m in members] or pool) if rng.random() < 0.9 else one()
    def absent(): return rng.choice([m for m in pool if m.encode() not in group().leaf] or pool) if rng.random() < 0.7 else one()
    def keyed(): return rng.choice([m.decode() for m in members if members[m].store] or pool) if rng.random() < 0.9 else one()
    def push(name):
        store = name.encode() in members and members[name.encode()].store
        near = store.last if store and rng.random() < 0.7 else rng.randint(0, group().sequence + 1)
        return near + rng.choice([0, 1, 1, 1, 2])
    def epoch(): return max(0, group().epoch + rng.choice([0] * 9 + [1]) - int(rng.expovariate(0.7)))
    def drawn(kind):
        if kind == 'join': return ['join ' + absent()]
        if kind in ('again', 'lose'): return [kind + ' ' + known()]
        if kind == 'lost': name = absent(); return ['lose ' + name, rng.choice(['join ', 'again ']) + name, 'again ' + name]
        if kind == 'leave': return ['leave ' + present()]
        if kind == 'key': return ['key ' + keyed()]
        if kind == 'deliver': name = keyed(); return ['deliver %s %d' % (name, push(name))]
        if kind == 'pair' and not console.pushes: return ['batch']
        if kind == 'pair':                                       # both pushes of an epoch, now and then the wrong way round
            name, last = keyed(), rng.choice(sorted(console.pushes)) // 2 * 2 if rng.random() < 0.4 else group().sequence
            pair = ['deliver %s %d' % (name, max(0, last + k)) for k in (-1, 0)]
            return pair[::rng.choice([1, 1, 1, -1])]
        if kind == 'derive':
            return ['derive %d %s' % (epoch(), ' '.join(rng.choice([present, known, one])()
                                                        for _ in range(rng.choice([1, 1, 1, 2, 3, 8]))))]
        if kind == 'rule': return [rng.choice(['allow ', 'deny ']) + rng.choice(pool + ['*', 'a*', 'b0*', 'c*'])]
        if kind == 'idle': return [rng.choice(IDLE)]
        if kind == 'block': return ['together', *block(), 'end']
        return [kind]
    def block():
        lines, named = [], set()
        while not lines or rng.random() < 0.8:
            word, name = rng.choice([('join', absent()), ('join', known()), ('again', known()), ('leave', present()), ('batch', ''), ('now', '')])
            if name in named: continue
            if name: named.add(name)
            lines.append((word + ' ' + name).strip())
        return lines
    kinds = {'now': 2, 'block': 12 if console.workers == 1 else 0, 'join': 24, 'again': 7, 'lose': 4, 'lost': 4, 'leave': 11, 'batch': 14, 'deliver': 8, 'pair': 5, 'deliver-all': 6,
             'key': 6, 'derive': 6, 'show': 4, 'rule': 1, 'halt': 1, 'reopen': 1, 'idle': 1}
    lines = []
    def add(line):
        lines.append(line)
        console.run_line(len(lines), line.encode())
    if rng.random() < 0.15: add('deny ' + rng.choice(pool + ['a0*', 'b1', 'b*']))
    add(rng.choice(['allow *'] * 8 + ['allow a*', 'allow b0']))
    while len(lines) < count:
        if console.server.need and rng.random() < 0.3: add('reopen')
        for line in drawn(rng.choices(list(kinds), list(kinds.values()))[0]): add(line)
    if rng.random() < 0.05: lines.append(rng.choice(FAULTY))
    return lines

def drawn_case(rng):
    """The runs of a case: (what is done to the disk, words, script, source fails, sink fails)."""
    depth = rng.choice([1, 2, 2, 2, 3, 3, 4])
    def words(first):
        more = [['--limit', str(rng.randint(1, 12))]] if rng.random() < 0.15 else []
        if rng.random() < 0.4: more.append(['--seed=%d' % rng.choice([rng.randint(0, 99), rng.getrandbits(64)])])
        if rng.random() < 0.1: more.append(['--workers', str(rng.randint(1, 16))])
        more.append(first)
        rng.shuffle(more)
        return [word for part in more for word in part]
    def script(words, disk):
        console = Console(words, None, Sink(), disk)
        if console.begun(): return b'show\n', console
        return '\n'.join(drawn_lines(rng, console, rng.randint(8, 80))).encode() + b'\n', console
    new, disk = words(['--new', str(depth)]), Disk()
    lines, console = script(new, disk)                           # without a fault: it tells which calls stand before a read
    calls = disk.schedule.calls if console.reopen_calls is None else console.reopen_calls
    fails = [rng.randint(1 if rng.random() < 0.1 else 12, calls)] if calls > 11 and rng.random() < 0.35 else []
    source = [rng.randint(1, 2)] if rng.random() < 0.03 else []
    sink = [rng.randint(1, 60)] if rng.random() < 0.05 else []
    runs = [(('faults', fails), new, lines, source, sink)]
    if rng.random() < 0.4:
        disk = Disk(fails=fails)
        run(new, lines, disk, source, sink)
        wrote = fails and fails[0] not in (3, 5, 7, 9, 11) and fails[0] % 2 == 0
        choice, again = rng.randint(0, 1 if wrote else 6), words(['--open'])
        runs.append((('crash', choice), again, script(again, disk.crashed(choice))[0], [], []))
    return runs

def write_drawn(count, seed, folder):
    """Rows as in a folder of rows, and all of them as one file of cases with its answer."""
    os.makedirs(folder, exist_ok=True)
    stdin, stdout = [], []
    for k in range(count):
        rng, case, disk = random.Random('%d %d' % (seed, k)), 'drawn_%d_%d' % (seed, k), Disk()
        stdin.append('case %s\n' % case)
        stdout.append('case %s\n' % case)
        for part, ((what, how), words, script, source, sink) in enumerate(drawn_case(rng)):
            if what == 'faults':
                disk = Disk(fails=how)
                if how: stdin.append('faults %s\n' % ' '.join(map(str, how)))
            else:
                disk = disk.crashed(how)
                stdin.append('crash %d\n' % how)
            before = bytes(disk.image)
            report, status, line, _ = run(words, script, disk, source, sink)
            for kind, fails in (('source', source), ('sink', sink)):
                if fails: stdin.append('%s %s\n' % (kind, ' '.join(map(str, fails))))
            stdin.append('words %s\n' % ' '.join(words))
            stdin += ['> %s\n' % text for text in script.decode().split('\n')[:-1]]
            stdin.append('run hashes\n')
            stdout.append(told('hashes', report, status, line, bytes(disk.image)))
            row = os.path.join(folder, case + ('_open' if part else ''))
            told_case = dict(status=status, line=line)
            if what == 'faults' and how: told_case['failing_disk_calls'] = how
            if source: told_case['failing_source_calls'] = source
            if sink: told_case['failing_sink_calls'] = sink
            files = {'.words': ' '.join(words).encode() + b'\n', '.script': script, '.stdout': report,
                     '.case.json': json.dumps(told_case).encode(), '.journal.hex': bytes(disk.image).hex().encode() + b'\n'}
            if part: files['.journal_in.hex'] = before.hex().encode() + b'\n'
            for end, octets in files.items(): open(row + end, 'wb').write(octets)
    open(os.path.join(folder, 'cases.stdin'), 'w').write(''.join(stdin))
    open(os.path.join(folder, 'cases.stdout'), 'w').write(''.join(stdout))

def compare_program(program, folder):
    """The program runs in a folder of its own, with the journal in the file group.journal."""
    program, ran, wrong = os.path.abspath(program), 0, 0
    def content(path): return open(path, 'rb').read() if os.path.exists(path) else b''
    def image(path): return bytes.fromhex(content(path).decode().strip())
    for row in sorted(f[:-len('.case.json')] for f in os.listdir(folder) if f.endswith('.case.json')):
        path, case = os.path.join(folder, row), json.loads(content(os.path.join(folder, row + '.case.json')))
        if any(key.startswith('failing') for key in case): continue
        with tempfile.TemporaryDirectory() as home:
            journal, before = os.path.join(home, 'group.journal'), image(path + '.journal_in.hex')
            if before: open(journal, 'wb').write(before)
            ended = subprocess.run([program] + content(path + '.words').decode().split(), cwd=home, capture_output=True,
                                   input=content(path + '.script'))
            got = ended.stdout, ended.stderr, ended.returncode, content(journal)
        due = content(path + '.stdout'), b'', case['status'], image(path + '.journal.hex')
        ran, wrong = ran + 1, wrong + (got != due)
        if got != due: print(row, 'differs in', ', '.join(n for n, a, b in zip(('report', 'errors', 'status', 'journal'), got, due) if a != b))
    print('%d rows, %d differ' % (ran, wrong))
    return wrong

def main(words):
    if words[:1] == ['--row']: sys.exit(print_rows(words[1], words[2:]) != 0)
    if words[:1] == ['--rows']:
        rows = sorted(f[:-len('.case.json')] for f in os.listdir(words[1]) if f.endswith('.case.json'))
        sys.exit(print_rows(words[1], rows) != 0)
    if words[:1] == ['--cases']: return sys.stdout.write(answer_cases(sys.stdin)[0])
    if words[:1] == ['--due']: return sys.stdout.write(answer_cases(sys.stdin)[1])
    if words[:1] == ['--drawn']: return write_drawn(int(words[1]), int(words[2]), words[3])
    if words[:1] == ['--program']: sys.exit(compare_program(words[1], words[2]) != 0)
    script = sys.stdin.buffer.read() if read_words(words) is not None else b''
    report, status, _, _ = run(words, script, Disk())
    sys.stdout.buffer.write(report)
    sys.exit(status)

if __name__ == '__main__':
    main(sys.argv[1:])
