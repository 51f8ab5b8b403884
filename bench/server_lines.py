#!/usr/bin/env python3
"""The lines that `case_servers` is given, and what it has to answer, by a second implementation of the key server.

    python3 bench/server_lines.py                       writes stdin and stdout of crates/case_servers, from bench/case_servers.script
    python3 bench/server_lines.py --compare PROGRAM     runs a program on that stdin, and says at which lines it answers something else
    python3 bench/server_lines.py --answer < LINES      answers lines as the program does
    python3 bench/server_lines.py --rows FOLDER         compares the readers of messages 1 and 3 with first.cases and third.cases of a folder

The server and its members are those of reference.py, but for what a console does not report: the place of a fault, both values of a HASH, and how many SAs
there may be. These are written here, from docs/FORMATS.md alone. No line that is due comes from the program.

A script has the lines of `case_servers`, and these, which become such lines; a state is shown after each opening:

    join NAME             a member makes a pull; at its first use it draws its SA, and has it introduced
    again NAME            it sends its last datagram again, and its pull goes on from there
    judge NAME            a member sends a first message
    look SAS COUNT        COUNT first messages of members of SAs that a line `fill` introduced
    cuts OCTETS           the server is given each front of a datagram, and at last all of it
    thirds NAME           third messages that were cut or changed at each place
    states                each of some datagrams in each of some states of sessions
    show                  the state, and who has which leaf
    drawn COUNT SEED      COUNT drawn datagrams to a group of its own, and what lies between them
    pulls MEMBERS COUNT   COUNT whole pulls of members of a group of its own, to which so many SAs are introduced
    held ALGORITHM BITS   sessions by themselves, with policies of this signature: a member waits, and begins another pull, and another

A member takes the answers that are due; one that does not get the keys of its place ends the run with an error. It needs the Python package cryptography.
"""

import pathlib
import subprocess
import sys

import reference as ref

TOP = pathlib.Path(__file__).resolve().parent.parent
CRATE = TOP / "crates" / "case_servers"
SCRIPT = TOP / "bench" / "case_servers.script"
GROUP = b"console"
MOST_LIMIT = 2**32 - 1

# ------------------------------------------------------------------------------------- messages 1 and 3, read with the places of faults


class Fault(Exception):
    """What is wrong, where, and the number of a kind."""

    def __init__(self, what, at, kind=""):
        super().__init__(what, at, kind)
        self.what, self.at, self.kind = what, at, kind


class BadHash(Exception):
    """The HASH that a message carries, and the one that is due."""

    def __init__(self, carried, expected):
        super().__init__(carried, expected)
        self.carried, self.expected = carried, expected


def read_header(datagram):
    """Cookies, first kind and message id."""
    size = len(datagram)
    if size < 28:
        raise Fault("short", size)
    if size > 65507:
        raise Fault("length", 65507)
    if datagram[17] != 0x10:
        raise Fault("version", 17)
    if datagram[18] != ref.PULL:
        raise Fault("kind", 18, datagram[18])
    if datagram[19] != 1:
        raise Fault("value", 19)
    if datagram[20:24] == bytes(4):
        raise Fault("value", 20)
    if ref.num(datagram[24:28]) != size or size == 28 or size % 16 != 12:
        raise Fault("length", 24)
    return datagram[:16], datagram[16], datagram[20:24]


class Chain:
    """Payloads of a text, one after another. Places are those in the whole datagram."""

    def __init__(self, first, head, text):
        self.octets = head + text
        self.kind, self.named, self.at = first, 16, len(head)

    def field(self, size):
        at = self.at
        if len(self.octets) - at < size:
            raise Fault("short", at)
        self.at += size
        return at, ref.num(self.octets[at : at + size])

    def payload(self, due, least, most):
        """The next payload, which is to be of this kind, with a body of so many octets."""
        if self.kind != due:
            raise Fault("kind", self.named, self.kind)
        start = self.at
        named, following = self.field(1)
        at, reserved = self.field(1)
        if reserved:
            raise Fault("reserved", at)
        at, length = self.field(2)
        if length < 4 or start + length > len(self.octets) or not least <= length - 4 <= most:
            raise Fault("length", at)
        self.kind, self.named, self.at = following, named, start + length
        return self.octets[start : self.at]

    def end(self):
        if self.kind:
            raise Fault("kind", self.named, self.kind)
        left = self.octets[self.at :]
        if len(left) >= 16:
            raise Fault("length", self.at)
        for place, octet in enumerate(left, self.at):
            if octet:
                raise Fault("padding", place)


ANY_SIZE = 65536


def opened(datagram, phase, iv, message):
    cookies, first, id_ = read_header(datagram)
    if cookies != phase["cookies"]:
        raise Fault("value", 0)
    if message not in (None, id_):
        raise Fault("value", 20)
    return Chain(first, datagram[:28], ref.cbc_open(phase["key"], iv, datagram[28:])), id_


def compare_hash(phase, carried, hashed):
    expected = ref.prf(phase["skeyid_a"], hashed)
    if carried != expected:
        raise BadHash(carried, expected)


def read_first(datagram, phase):
    """Nonce, type of the ID, and ID."""
    chain, message = opened(datagram, phase, ref.phase2_iv(phase["last"], datagram[20:24]), None)
    hash_ = chain.payload(ref.HASH, 32, 32)
    ni = chain.payload(ref.NONCE, 8, 128)
    id_ = chain.payload(ref.ID, 4, ANY_SIZE)
    chain.end()
    compare_hash(phase, hash_[4:], message + ni + id_)
    return ni[4:], id_[4], id_[8:]


def read_third(datagram, phase, message, iv, ni, nr):
    chain, _ = opened(datagram, phase, iv, message)
    hash_, gap = chain.payload(ref.HASH, 32, 32), b""
    if chain.kind:
        gap = chain.payload(ref.GAP, 0, ANY_SIZE)
    chain.end()
    compare_hash(phase, hash_[4:], message + ni + nr + gap)


# ------------------------------------------------------------------------------------------------------------------------- the server


class Server(ref.Server):
    """The server of reference.py, with room for so many SAs; its refusals tell all."""

    def __init__(self, disk, draws, sas):
        super().__init__(disk, draws)
        self.sas, self.names = sas, set()

    def introduce(self, phase):
        if phase["cookies"] in self.phases or phase["member"] in self.names:
            ref.refuse("phase-taken")
        if len(self.phases) >= self.sas:
            ref.refuse("phase-full %d" % len(self.phases))
        self.phases[phase["cookies"]] = phase
        self.names.add(phase["member"])

    def serve(self, datagram):
        if self.need:
            ref.refuse("needs-reopen")
        number = 0
        try:
            cookies, _, message = read_header(datagram)
            phase = self.phases.get(cookies) or ref.refuse("unknown-peer")
            session = self.sessions.get(cookies)
            if session and datagram == session["last"]:
                return session["kept"]
            if not session or session["message"] != message:
                number = 1
                return self.first(phase, message, datagram)
            if session["state"] != "third":
                ref.refuse("wrong-step")
            number = 3
            return self.third(phase, session, datagram)
        except Fault as fault:
            ref.refuse("malformed %d %d" % (number, fault.at))
        except BadHash as fault:
            ref.refuse("bad-hash %s %s" % (fault.carried.hex(), fault.expected.hex()))

    def first(self, phase, message, datagram):
        read_first(datagram, phase)
        return super().first(phase, message, datagram)

    def third(self, phase, session, datagram):
        read_third(datagram, phase, session["message"], session["iv"], session["ni"], session["nr"])
        return super().third(phase, session, datagram)

    def is_repeated(self, datagram):
        session = self.sessions.get(datagram[:16])
        return bool(session) and session["last"] == datagram


# ------------------------------------------------------------------------------------------------------------- what a program answers


def counts(group):
    return "epoch %d sequence %d members %d" % (group.epoch, group.sequence, len(group.leaf))


def pair_lines(group):
    return ["push %d %d %s" % (number, len(octets), octets.hex()) for number, octets in group.pair()]


def keys_line(member, group, names):
    keys = ["traffic.%d" % name[1] if name[0] == "traffic" else "%d.%d" % name[1:] for name in names]
    return " ".join(["keys", member.decode(), str(group.epoch), str(group.sequence)] + keys)


class Answers:
    """Answers lines, as `case_servers` does."""

    def __init__(self):
        self.server = None
        self.kept = {}

    def answer(self, line):
        """The lines that answer a line."""
        word, *rest = line.split()
        return getattr(self, "do_" + word)(*rest)

    def do_group(self, depth, limit, sas, seed, *fails):
        disk, draws = ref.Disk(fails=map(int, fails)), ref.Draws(int(seed), 0)
        self.server = Server(disk, draws, int(sas))
        try:
            self.server.create(int(depth), GROUP, int(limit))
        except ref.Refused as why:
            self.server = None
            return ["refused %s" % why]
        return ["made"]

    def do_open(self, sas):
        closed, self.server = self.server, None
        server = Server(closed.disk, closed.draws, int(sas))
        try:
            server.open()
        except ref.Refused as why:
            return ["refused %s" % why]
        self.server = server
        return ["opened"] + pair_lines(server.group)

    def do_allow(self, pattern):
        return self.rule(True, pattern)

    def do_deny(self, pattern):
        return self.rule(False, pattern)

    def rule(self, allow, pattern):
        if not ref.PATTERN.match(pattern.encode()):
            return ["no pattern"]
        self.server.rules.append((allow, pattern.encode()))
        return ["rule %d" % len(self.server.rules)]

    def do_fill(self, count):
        for i in range(int(count)):
            self.server.introduce(numbered_phase(i))
        return ["introduced"]

    def do_introduce(self, name, *octets):
        cookies, skeyid_a, key, last = map(bytes.fromhex, octets)
        phase = {"member": name.encode(), "cookies": cookies, "skeyid_a": skeyid_a, "key": key, "last": last}
        return self.done("introduced", self.server.introduce, phase)

    def done(self, what, call, *words):
        try:
            call(*words)
        except ref.Refused as why:
            return ["refused %s" % why]
        return [what]

    def do_serve(self, octets):
        datagram = b"" if octets == "-" else bytes.fromhex(octets)
        try:
            return self.message_lines(datagram[:16], self.server.serve(datagram))
        except ref.Refused as why:
            return ["refused %s" % why]

    def message_lines(self, cookies, answer):
        """The lines of what is answered under an SA. The keys that a kept message says by name are those of its own epoch."""
        if answer[0] == ref.QUEUED:
            return ["queued"]
        lines = ["%s %d %s" % (answer[0], len(answer[1]), answer[1].hex())]
        if answer[0] == ref.SECOND:
            return lines
        if answer[1] not in self.kept:
            self.kept[answer[1]] = keys_line(self.server.phases[cookies]["member"], self.server.group, answer[2])
        return lines + [self.kept[answer[1]]]

    def do_leave(self, name):
        return self.done("leaving", self.server.leave, name.encode())

    def do_batch(self):
        try:
            replies = self.server.batch()
        except ref.Refused as why:
            return ["refused %s" % why]
        group = self.server.group
        lines = [counts(group)]
        lines += ["wrap %s %s" % (ref.dotted(by), ref.dotted(gives)) for by, gives in group.last_wraps]
        lines += pair_lines(group)
        for _, answer in replies:
            lines += self.message_lines(answer[1][:16], answer)
        return lines

    def do_halt(self):
        self.server.need = True
        return ["halted"]

    def do_reopen(self):
        try:
            self.server.reopen()
        except ref.Refused as why:
            return ["refused %s" % why]
        return ["reopened"] + pair_lines(self.server.group)

    def do_leaf(self, number):
        members = [member.decode() for member, leaf in self.server.group.leaf.items() if leaf == int(number)]
        return members or ["nobody"]

    def do_state(self):
        group = self.server.group
        need = " needs-reopen" if self.server.need else ""
        return ["depth %d draws %d %s%s" % (group.depth, self.server.draws.place, counts(group), need)]


    def do_sessions(self, limit, name, *words):
        """Sessions by themselves, of one member. Each step is a message that is due."""
        if limit == "0":
            return ["refused phase-full 0"]
        cookies, skeyid_a, key, last, spi, tek, nr = [bytes.fromhex(words[i]) for i in (0, 1, 2, 3, 4, 7, 8)]
        phase, kind = {"cookies": cookies, "skeyid_a": skeyid_a, "key": key, "last": last}, (int(words[5]), int(words[6]))
        lines, session = [], None
        for step, octets in zip(words[9::2], words[10::2]):
            datagram = bytes.fromhex(octets)
            if step == "begin":
                ni, _, _ = read_first(datagram, phase)
                second = ref.write_second(phase, datagram[20:24], datagram[-16:], ni, nr, spi, tek, kind)
                session = datagram[20:24], second[-16:], ni, nr
                lines.append("second %d %s" % (len(second), second.hex()))
            else:
                read_third(datagram, phase, *session)
            lines.append("held " + (datagram[-16:].hex() if step == "queue" else "-"))
        return lines


# ------------------------------------------------------------------------------------------------------------------- lines of a script


class Member(ref.Member):
    """A member, and what its pull makes of answers."""

    def take(self, datagram, answer, server):
        """Gives the pull an answer of the server to a datagram. Whether there is another datagram to send."""
        message = datagram[20:24]
        if not self.pull or self.pull["message"] != message:
            return False
        if answer[0] == ref.SECOND and self.pull["waits"] == ref.SECOND:
            assert self.second(answer[1])
            return True
        if answer[0] == ref.FOURTH and self.pull["waits"] == ref.FOURTH:
            keyed = self.fourth(answer[1])
            assert keyed == server.group.keyed(self.name)
        return False

    def introduction(self):
        phase = self.phase
        octets = [phase[part].hex() for part in ("cookies", "skeyid_a", "key", "last")]
        return " ".join(["introduce", phase["member"].decode()] + octets)


WORDS = ("join", "again", "judge", "look", "cuts", "thirds", "states", "show", "drawn", "pulls", "held")


class Lines:
    """Makes lines, answers each, and has members take what is answered."""

    def __init__(self):
        self.given, self.due = [], []
        self.answers = Answers()
        self.begin(0)

    def begin(self, seed):
        self.members, self.peers = {}, ref.Draws(seed, 1)

    @property
    def server(self):
        return self.answers.server

    def add(self, line):
        """What a line is answered."""
        answer = self.answers.answer(line)
        self.given.append(line)
        self.due += answer
        return answer

    def run(self, line):
        word, *rest = line.split()
        if word in WORDS:
            getattr(self, word)(*rest)
            return
        if word == "group":
            self.begin(int(rest[3]))
        if word == "batch":
            self.batch()
        else:
            self.add(line)
        if word in ("open", "reopen"):
            self.add("state")

    def serve(self, datagram):
        """What the server answers a datagram, and nothing where it refuses that or has its join wait; and whether it is answered again."""
        repeated = not self.server.need and self.server.is_repeated(datagram)
        answer = self.add("serve " + (datagram.hex() or "-"))[0].split()
        octets = bytes.fromhex(answer[2]) if answer[0] in (ref.SECOND, ref.FOURTH) else None
        return (answer[0], octets), repeated

    def member(self, name):
        if name not in self.members:
            self.members[name] = Member(name, self.peers)
        return self.members[name]

    def join(self, name):
        member = self.member(name.encode())
        if not member.introduced:
            member.introduced = self.add(member.introduction()) == ["introduced"]
        if member.introduced:
            member.begin(GROUP)
            self.go_on(member)

    def again(self, name):
        self.go_on(self.members[name.encode()])

    def go_on(self, member):
        datagram = member.sent
        while True:
            answer, _ = self.serve(datagram)
            if not member.take(datagram, answer, self.server):
                return
            datagram = member.sent

    def judge(self, name):
        member = self.member(name.encode())
        if not member.introduced:
            member.introduced = self.add(member.introduction()) == ["introduced"]
        member.begin(GROUP)
        self.serve(member.sent)

    def look(self, sas, count):
        """Gives first messages of members all over the SAs."""
        for i in range(int(count)):
            phase = numbered_phase(i % 16 * (int(sas) // 16) % int(sas))
            self.serve(ref.write_first(phase, b"\x80\0\0\1", bytes(16 * [7]), GROUP))

    def thirds(self, name):
        """A member makes a pull. Its third message, and one with a GAP, is given cut at each place, and with two bits of each octet changed, sealed or not."""
        member = self.member(name.encode())
        member.introduced = self.add(member.introduction()) == ["introduced"]
        member.begin(GROUP)
        first = member.sent
        answer, _ = self.serve(first)
        assert member.take(first, answer, self.server)
        pull, iv = member.pull, answer[1][-16:]
        whole = []
        for gap in (b"", ref.payload(0, bytes(range(1, 9)))):
            hashed = pull["message"] + pull["ni"] + pull["nr"] + gap
            text = ref.padded(ref.payload(ref.GAP if gap else 0, ref.prf(member.phase["skeyid_a"], hashed)) + gap)
            head = ref.header(member.phase["cookies"], ref.HASH, ref.PULL, pull["message"], len(text))
            whole.append(head + ref.cbc_seal(member.phase["key"], iv, text))
            for size in range(len(whole[-1])):
                self.serve(whole[-1][:size])
            for other in flipped(whole[-1]):
                self.serve(other)
            for other in flipped(text):
                self.serve(head + ref.cbc_seal(member.phase["key"], iv, other))
        self.serve(whole[1])
        self.serve(whole[0])
        self.serve(whole[1])

    def states(self):
        """Each of some datagrams in each of some states of two members' sessions."""
        for steps in STATES:
            for datagram in range(12):
                self.state_and(steps.split(), datagram)

    def state_and(self, steps, datagram):
        self.begin(0)
        self.add("group 2 %d 2 0" % MOST_LIMIT)
        self.add("allow *")
        ours, theirs = self.member(b"a"), self.member(b"c")
        for member in (ours, theirs):
            self.add(member.introduction())
        pulls = {name: Pull(member.phase, number, nonce) for name, member, number, nonce in (
            ("a1", ours, 1, 0x10), ("a2", ours, 2, 0x20), ("c1", theirs, 1, 0x30))}
        for step in steps:
            if step[0] in "ac":
                pull = pulls[step[:2]]
                answer, _ = self.serve(pull.third() if step.endswith("!") else pull.first())
                pull.note(answer)
            else:
                self.add(step.replace("/", " "))
        self.serve(state_datagrams(pulls)[datagram])
        self.add("state")

    def batch(self):
        """Closes the batch, and gives each member its fourth message."""
        self.add("batch")
        for phase in list(self.server.phases.values()):
            member, session = self.members.get(phase["member"]), self.server.sessions.get(phase["cookies"])
            if member and member.phase == phase and session and session["state"] == "done":
                if session["kept"][1][20:24] == (member.pull or {}).get("message"):
                    member.take(member.sent, session["kept"], self.server)

    def show(self):
        self.add("state")
        room = self.server.group.room()
        for leaf in range(room, 2 * room):
            self.add("leaf %d" % leaf)

    def cuts(self, octets):
        datagram = bytes.fromhex(octets)
        for size in range(len(datagram) + 1):
            self.serve(datagram[:size])

    def held(self, algorithm, bits):
        """One member's sessions by themselves: its second pull begins while the first one waits, and the first one begins anew while the second waits."""
        phase = numbered_phase(1)
        pulls = {number: Pull(phase, number, 16 * number) for number in (1, 2)}
        octets = [phase[part].hex() for part in ("cookies", "skeyid_a", "key", "last")]
        line = ["sessions 1", phase["member"].decode(), *octets, bytes(range(9, 25)).hex(), algorithm, bits, "80010203", bytes(range(100, 116)).hex()]
        for number, step in ((1, "begin"), (1, "queue"), (2, "begin"), (2, "queue"), (1, "begin")):
            line += [step, (pulls[number].third() if step == "queue" else pulls[number].first()).hex()]
            which, *_, last = self.answers.answer(" ".join(line))[-2].split()
            if which == ref.SECOND:
                pulls[number].note((which, bytes.fromhex(last)))
        self.add(" ".join(line))

    # ------------------------------------------------------------------------------------------------------------- many pulls

    def pulls(self, members, count):
        self.begin(0)
        self.add("group 9 %d %s 0" % (MOST_LIMIT, members))
        self.add("allow *")
        names = [numbered(i) for i in range(int(members))]
        for name in names:
            member = self.member(name.encode())
            member.introduced = self.add(member.introduction()) == ["introduced"]
        present = names[:512]
        for first in range(0, len(present), 32):
            for name in present[first : first + 32]:
                self.join(name)
            self.batch()
        for i in range(int(count)):
            self.join(present[i % len(present)])
            assert self.members[present[i % len(present)].encode()].pull["waits"] is None

    # -------------------------------------------------------------------------------------------------------- drawn datagrams

    def drawn(self, count, seed):
        self.begin(int(seed))
        self.add("group 2 %d 8 %s" % (MOST_LIMIT, seed))
        actors = [Actor(self.member(name)) for name in SEATS]
        choices, rules = ref.Draws(int(seed), 2), list(RULES)
        for _ in range(int(count)):
            choice = choices.draw()
            self.between(choice, actors[choice[1] % len(actors)].member, rules)
            self.give(choice, actors)
            self.add("state")

    def between(self, choice, member, rules):
        """What lies between two datagrams."""
        kind = choice[0]
        if kind < 32:
            self.batch()
        elif kind < 48:
            self.add("leave " + member.name.decode())
        elif kind < 50:
            self.add("halt")
        elif kind < 66 and self.server.need:
            self.add("reopen")
        elif 66 <= kind < 70 and rules:
            self.add(rules.pop(0))
        elif 70 <= kind < 86:
            self.add(member.introduction())

    def give(self, choice, actors):
        """A drawn datagram: of a new pull, the third message, or an earlier one; one of four is changed."""
        seat = choice[4] % len(actors)
        actor = actors[seat]
        sent = actor.choose(choice)
        datagram = changed(sent, choice, seat, actors)
        answer, repeated = self.serve(datagram)
        if not repeated and actor.member.take(datagram, answer, self.server):
            actor.third = actor.member.sent
        actor.keep(sent, choice[6])


class Pull:
    """A pull of an SA, with a message id and a nonce of its own."""

    def __init__(self, phase, number, nonce):
        self.phase, self.message = phase, b"\x80\0\0" + bytes([number])
        self.ni, self.nr, self.iv, self.fourth = bytes(range(nonce, nonce + 16)), bytes(16), bytes(16), bytes(28)

    def first(self, nonce=None):
        return ref.write_first(self.phase, self.message, nonce or self.ni, GROUP)

    def third(self):
        return ref.write_third(self.phase, self.message, self.iv, self.ni, self.nr)

    def note(self, answer):
        if answer[0] == ref.SECOND:
            self.iv = answer[1][-16:]
            self.nr, _ = ref.read_second(answer[1], self.phase, self.message, self.first()[-16:], self.ni)
        if answer[0] == ref.FOURTH:
            self.fourth = answer[1]


# `a1` is the first message of a pull of a, `a1!` its third message
STATES = [
    "", "a1", "a1 a1!", "a1 a1! batch", "a1 a1! batch batch", "a1 a1! batch halt", "a1 a1! batch halt reopen", "a1 a1! batch a2", "a1 a1! batch a2 a2!",
    "a1 a1! batch a2 a1", "a1 a2", "a1 a2 a1", "a1 a2 a2!", "a1 c1 c1!", "a1 c1 a1! c1!", "a1 c1 a1! c1! batch", "a1 a1! batch leave/a a2",
    "a1 a1! c1 halt reopen",
]


def state_datagrams(pulls):
    """Messages 1 and 3 of each pull, message 1 with another nonce, and what is none of them."""
    ours, other, theirs = pulls["a1"], pulls["a2"], pulls["c1"]
    return [
        ours.first(), ours.first(bytes(16 * [9])), other.first(), ours.third(), other.third(),
        theirs.first(), theirs.first(bytes(16 * [9])), theirs.third(), theirs.phase["cookies"] + ours.third()[16:],
        bytes(44 * [0xAB]), ours.first()[:44], bytes(16 * [0xEE]) + ours.first()[16:],
    ]


def flipped(octets):
    """The octets with the lowest bit of each changed, and with the highest."""
    for place, octet in enumerate(octets):
        for mask in (1, 128):
            yield octets[:place] + bytes([octet ^ mask]) + octets[place + 1 :]


def numbered_phase(i):
    """An SA of this number: cookies and a member of its own, and keys that all have."""
    cookies = bytes(4 * [1]) + ref.n4(i) + bytes(8 * [1])
    return {"member": numbered(i).encode(), "cookies": cookies, "skeyid_a": bytes(32 * [2]), "key": bytes(16 * [3]), "last": bytes(16 * [4])}


SEATS = [b"a0", b"a1", b"a2", b"a3", b"a4", b"b0", b"b1", b"c0"]
RULES = ["deny b1", "allow a*", "allow b*", "deny *", "allow c0"]


class Actor:
    """A member of a drawn run, and what it sent."""

    def __init__(self, member):
        self.member, self.third, self.older = member, None, []

    def choose(self, choice):
        kind = choice[5] % 8
        if 2 <= kind <= 4 and self.third:
            return self.third
        if kind > 4 and self.older:
            return self.older[choice[7] % len(self.older)]
        self.member.begin(GROUP)
        return self.member.sent

    def keep(self, sent, choice):
        if len(self.older) < 8:
            self.older.append(sent)
        else:
            self.older[choice % 8] = sent


def changed(sent, choice, seat, actors):
    """A datagram with other cookies, with another octet, cut, with the cookies of another member, or as it is."""
    number = choice[9] + 256 * choice[10]
    place, mask, kind = number % len(sent), max(choice[11], 1), choice[8]
    if kind < 16:
        return bytes([0xEE]) * 16 + sent[16:]
    if kind < 40:
        place = number % 28 if kind < 24 else place
        return sent[:place] + bytes([sent[place] ^ mask]) + sent[place + 1 :]
    if kind < 56:
        return sent[:place]
    if kind < 64:
        other = actors[(seat + 1 + number % (len(actors) - 1)) % len(actors)]
        return other.member.phase["cookies"] + sent[16:]
    return sent


def numbered(i):
    """A name for a number: its digits to the base 16, as letters."""
    return "".join(chr(ord("a") + (i >> 4 * digit) % 16) for digit in range(8))


# ------------------------------------------------------------------------------------------------------------------------- to be called


def lines_of(script):
    lines = Lines()
    for line in script.splitlines():
        lines.run(line)
    return lines


def write_lines():
    lines = lines_of(SCRIPT.read_text())
    for name, texts in (("stdin", lines.given), ("stdout", lines.due)):
        (CRATE / name).write_text("".join(text + "\n" for text in texts))
    print("%d lines, answered by %d" % (len(lines.given), len(lines.due)))


def compare_program(program):
    """Gives the program a line at a time, so that each answer is seen beside its line."""
    given = (CRATE / "stdin").read_text().splitlines()
    said = subprocess.run([program], input="\n".join(given) + "\n", check=True, capture_output=True, text=True).stdout.splitlines()
    answers, place, differ = Answers(), 0, 0
    for number, line in enumerate(given, 1):
        due = answers.answer(line)
        got = said[place : place + len(due)]
        place += len(due)
        if got != due:
            differ += 1
            print("line %d: %s\n  due %s\n  got %s" % (number, line[:120], due, got))
            if differ == 20:
                sys.exit("more may differ")
    differ += said[place:] != []
    print("%d lines, %d differ" % (len(given), differ))
    sys.exit(differ != 0)


def compare_rows(folder):
    """The readers beside rows of cases."""
    compared = differ = 0
    for name in ("first", "third"):
        phase = pull = None
        for line in (pathlib.Path(folder) / (name + ".cases")).read_text().splitlines():
            if line.startswith("phase "):
                octets = [bytes.fromhex(word) for word in line.split()[1:]]
                phase = dict(zip(("cookies", "skeyid_a", "key", "last"), octets))
            elif line.startswith("pull "):
                pull = [bytes.fromhex(word) for word in line.split()[1:5]]
            else:
                asked, due = line.split(" = ")
                octets = asked.split()[1]
                got = answer_row(name, b"" if octets == "-" else bytes.fromhex(octets), phase, pull)
                compared, differ = compared + 1, differ + (got != due)
                if got != due:
                    print("%s: due %s, got %s" % (asked[:100], due, got))
    print("%d rows, %d differ" % (compared, differ))
    sys.exit(differ != 0)


def answer_row(name, datagram, phase, pull):
    try:
        if name == "first":
            nonce, kind, id_ = read_first(datagram, phase)
            return "ok %s %d %s" % (nonce.hex(), kind, id_.hex() or "-")
        read_third(datagram, phase, *pull)
        return "ok " + datagram[-16:].hex()
    except Fault as fault:
        return ("malformed %s %d %s" % (fault.what, fault.at, fault.kind)).rstrip()
    except BadHash as fault:
        return "bad-hash " + fault.expected.hex()


def main(words):
    if words == ["--answer"]:
        answers = Answers()
        for line in sys.stdin:
            print("\n".join(answers.answer(line)))
    elif words[:1] == ["--compare"]:
        compare_program(words[1])
    elif words[:1] == ["--rows"]:
        compare_rows(words[1])
    else:
        write_lines()


if __name__ == "__main__":
    main(sys.argv[1:])
