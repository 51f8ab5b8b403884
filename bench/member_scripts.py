#!/usr/bin/env python3
"""Scripts of members that come, go and lose datagrams, as cases for crates/case_consoles.

    member_scripts.py        prints the cases `members_drawn_..` and `keys_of_.._apart` of its stdin

What they must print is the answer of `reference.py --cases`. Of that console's reports it is seen here, before a case is printed, that

- whoever is a member and took its fourth message has the key of the group, all have the same one, and nobody else has it;
- of two runs, each push is read under the root key of one epoch: that under which it was sent.
"""
from reference import Disk, Draws, run

NAMES = 'abcd'                              # as many as the tree has leaves
LOOK = ['deliver-all', *('key ' + name for name in NAMES), 'show']
# What a script is drawn of, where `?` stands for a name.
PARTS = [['join ?']] * 4 + [['lose ?']] * 2 + [['again ?']] + [['leave ?']] * 2 + [['batch']] * 4 + [['allow ?']] + [LOOK] * 2
# Whoever was denied, is gone, or lost a datagram comes in, and takes its fourth message.
ALL_JOIN = ['allow *', 'batch', *(word + name for name in NAMES for word in ('join ', 'again ')), 'batch']

def drawn_script(seed):
    draws, lines = Draws(seed, 2), ['allow a', 'allow b']
    for _ in range(32):
        block = draws.draw()
        lines += [line.replace('?', NAMES[block[1] % 4]) for line in PARTS[block[0] % 16]]
    return lines + LOOK + ALL_JOIN + LOOK

class Judge:
    """Follows the report of a run, line by line."""
    def __init__(self):
        self.met = set()                    # what has to come in some report
    def judge(self, report):
        self.told, self.lines, self.in_batch, self.have = set(), [], False, 0
        for words in (line.split() for line in report.decode().splitlines()):
            self.follow(words)
        assert self.have == len(NAMES)      # at its end all have the key
    def follow(self, words):
        if words[0] == 'leaf': return self.members.add(words[2])
        if self.lines and self.lines[-1][0] == 'group': self.look()
        self.lines.append(words)
        self.in_batch = words[0] == 'epoch' or self.in_batch and words[0] in ('wrap', 'push', 'fourth')
        if words[0] == 'group': self.members = set()
        if words[0] == 'fourth' and self.in_batch: self.told.discard(words[1])      # who comes in was not told its keys yet
        if words[1:2] == ['keyed']: self.told.add(words[0])
        if words[1:] == ['lost']: self.met.add('lost')
        if words[1:3] == ['refused', 'denied']: self.met.add('denied')
    def look(self):
        """The lines of the last look are those of the keys of all names, and that of the group."""
        group, keys = self.lines[-1], self.lines[-1 - len(NAMES):-1]
        epoch, sequence = int(group[2]), int(group[4])
        assert [line[0] for line in keys] == [*NAMES] and len(self.members) == int(group[6])
        keys = {line[0]: (int(line[2]), int(line[4]), line[5]) for line in keys if line[1] == 'key'}
        prints = {key[2] for key in keys.values() if key[0] == epoch}
        for name in NAMES:
            key, is_in = keys.get(name), name in self.members
            if is_in and name in self.told: assert key[:2] == (epoch, sequence) and {key[2]} == prints
            else: assert key is None or key[0] < epoch and key[2] not in prints
            if key and not is_in: self.met.add('gone')
            if is_in and name not in self.told: self.met.add('untold')
        self.have = len(self.members & self.told)

def probes(name, first, last, pushes):
    """A store at the root of one epoch is given all pushes: first those that it must not read, and then the pair that takes it to the next root."""
    lines = []
    for epoch in range(first, last + 1):
        own = [n for n in (2 * epoch - 2, 2 * epoch - 1) if 1 <= n <= pushes]
        lines += ['deliver %s %d' % (name, n) for n in [n for n in range(1, pushes + 1) if n not in own] + own]
    return lines

# The stored script of gdoi_console up to its last batch, and one of seven batches by which members come, go and come back. One of these changes nothing, and
# `b` loses the fourth message of its second join, so that its store stays at the root of the first epoch.
APART = {
    'keys_of_two_epochs_apart': (2, ['allow *', 'join a', 'join b', 'join c', 'batch', 'leave b', 'batch'] + probes('a', 1, 2, 2)),
    'keys_of_seven_epochs_apart': (12,
        ['allow *', 'join a', 'join b', 'batch', 'join c', 'batch', 'leave a', 'batch', 'batch', 'join a', 'leave b', 'batch', 'join d', 'join b', 'lose b',
         'batch', 'leave c', 'batch'] + probes('b', 1, 4, 12) + ['deliver c 3', 'deliver c 5', 'deliver c 7'] + probes('c', 5, 6, 12)
        + ['deliver d 11'] + probes('d', 7, 7, 12)),
}

def ends_well(words, lines):
    report, status, _, _ = run(words, '\n'.join(lines + ['']).encode(), Disk())
    assert status == 0
    return report

def case(name, words, lines, detail):
    return ['case ' + name, 'words ' + ' '.join(words), *('> ' + line for line in lines), 'run ' + detail]

def main():
    out, judge = [], Judge()
    for seed in range(12):
        words, lines = ['--new', '2', '--seed', str(seed)], drawn_script(seed)
        judge.judge(ends_well(words, lines) + b'end\n')
        out += case('members_drawn_%d' % seed, words, lines, 'hashes')
    assert judge.met == {'lost', 'denied', 'gone', 'untold'}
    for name, (pushes, lines) in APART.items():
        report = ends_well(['--new', '2'], lines).decode()
        # Each push is malformed to a store at any root but one.
        assert report.count(' refused malformed\n') == pushes * (report.count('\nepoch ') - 1)
        out += case(name, ['--new', '2'], lines, 'outline')
    print('\n'.join(out))

if __name__ == '__main__':
    main()
