"""Traps: small scripts, each slow in a plain body for one reason, which is told beside it. `bench/scripts` runs them as it runs
the workloads."""

import random


def resends(senders, members=16):
    """Each member but the sender is offered each sender's outbox."""
    return [f'resend {r} {k}' for r in range(members) for k in senders if k != r]


def full_log(objects, members=16, window=64):
    """Each member's window is full of adds, to so many sets in turn, and member 0 has all of them, none stable."""
    s = [f'store {members} {window} 65535']
    for i in range(members):
        s += [f'do {i} awset:s{j % objects} add v{(i * window + j) * 7919 % 1024:04d}' for j in range(window)]
    return s + [f'resend 0 {k}' for k in range(1, members)] + ['size 0']


def marks(rounds=8, each=8):
    """512 removes are stable while 512 adds of the same values aren't, and messages come."""
    s = ['store 16 64 65535']
    for i in range(8): s += [f'do {i} rwset:s add v{i * 64 + j}' for j in range(64)]
    for i in range(8, 16): s += [f'do {i} rwset:s rmv v{(i - 8) * 64 + j}' for j in range(64)]
    s += resends(range(8, 16)) + [f'beat {r}' for r in range(16)] + resends(range(16))
    for _ in range(rounds):
        for i in range(8, 16): s += [f'do {i} counter:c inc 1'] * each
        s += resends(range(8, 16))
    return s + ['ask 3 counter:c', 'size 3']


def outbox(asks=20000):
    """A member's outbox is full of messages that another has all, and is offered to it again and again."""
    s = ['store 16 64 65535'] + ['do 0 counter:a inc 1'] * 64
    for k in range(1, 15):
        s += [f'do {k} counter:b inc 1'] * 64
        for j in range(1, 65): s += [f'give 0 {k} {j}', 'beat 0']
    s += [f'resend 1 {k}' for k in range(2, 15)]
    return s + ['resend 1 0', 'seen 1', 'size 0'] + ['resend 1 0'] * asks


def logask(asks=3000):
    """A set whose values are all in a full log is asked for."""
    return full_log(1) + ['ask 0 awset:s0'] * asks


def readd(values=30000):
    """Settled values are added again, in another order."""
    s = ['store 1 64 65535'] + [f'do 0 awset:big add value-{i * 7919 % values:05d}' for i in range(values)]
    return s + [f'do 0 awset:big add value-{i * 7907 % values:05d}' for i in range(values * 7 // 6)] + ['size 0']


def resettle(times=300):
    """Outboxes and windows are full, none may send, so nothing becomes stable: and the store settles again and again."""
    s = ['store 16 64 64']
    for i in range(16): s += [f'do {i} counter:c inc 1'] * 64
    return s + ['settle'] * times


def flags(count=30000):
    """Many flags are turned on, then off in another order."""
    s = ['store 1 64 65535'] + [f'do 0 ewflag:f{i * 7919 % count:05d} enable' for i in range(count)]
    return s + [f'do 0 ewflag:f{i * 7907 % count:05d} disable' for i in range(count)] + ['size 0']


def logs(asks=3000):
    """A full log of several sets is listed."""
    return full_log(7) + ['log 0'] * asks


def regs(turns=15000):
    """Three members that hear each other write one register in turn."""
    s = ['store 3 64 65535']
    pairs = [f'resend {a} {b}' for a in range(3) for b in range(3) if a != b]
    for i in range(turns):
        s += [f'do {i % 3} mvreg:r write v{i}', f'resend {(i + 1) % 3} {i % 3}', f'resend {(i + 2) % 3} {i % 3}']
        if i % 16 == 0: s += [f'beat {k}' for k in range(3)] + pairs
    return s


def deletes(asks=300, elements=64):
    """A list of 1024 elements is asked for, and its tombs: each second was deleted by two members, and none of that is stable."""
    s = ['store 16 64 65535']
    for k in range(16): s += [f'do {k} list:d ins v{k * elements + j} head' for j in range(elements)]
    s.append('settle')
    for k in range(16): s += [f'do {k} list:d del 0.{(k + j % 2) % 16}.{1 + j // 2 * 2}' for j in range(64)]
    return s + [f'resend 0 {k}' for k in range(1, 16)] + ['size 0'] + ['ask 0 list:d', 'tombs 0 list:d'] * asks


# What the program multiplies by where it takes a hash: of an item, to remember in which slot it was found (`stable_state`), and of
# an object, to remember where its entries stand (`polog`).
FACTOR = 0x9E3779B97F4A7C15


def alike_values(count):
    """So many values of a set `s`, of 24 bytes each, whose items' hashes are small numbers, and so tell one place, however many places
    there are: they were computed backwards from them."""
    begin, end = b'v' * 13, b'end'
    number = lambda bytes: int.from_bytes(bytes, 'big')
    first = number(bytes([0]) + b's\0' + begin[:5]) ^ number(begin[5:]) * FACTOR
    fixed = (first * FACTOR ^ number(end + bytes(5)) * FACTOR) % 2**64
    inverse, at, found = pow(FACTOR, -1, 2**64), 0, []
    while len(found) < count:
        middle = fixed ^ at
        at = (at + inverse) % 2**64
        if middle & 0x8080808080808080 == 0 and all(0x20 < b < 0x7F for b in middle.to_bytes(8, 'big')):
            found.append((begin + middle.to_bytes(8, 'big') + end).decode())
    return found


def plain_values(count):
    """As many values of as many bytes, of no pattern."""
    R = random.Random(32)
    return ['v' * 13 + ''.join(chr(R.randrange(0x21, 0x7F)) for _ in range(8)) + 'end' for _ in range(count)]


def alike(values=alike_values, count=2000, turns=28000):
    """Settled values whose items have one hash are added again and again, in another order."""
    v = values(count)
    s = ['store 1 64 65535'] + [f'do 0 awset:s add {it}' for it in v]
    return s + [f'do 0 awset:s add {v[i * 1237 % count]}' for i in range(turns)] + ['size 0']


def alike_keys(count):
    """So many keys of sets, of one hash where the log remembers where entries stand."""
    found, i = [], 0
    while len(found) < count:
        key = f'k{i:06d}'
        padded = key.encode().ljust(32, b'\0')
        total = sum(int.from_bytes(padded[at : at + 8], 'little') for at in range(0, 32, 8))
        if (total * FACTOR % 2**64) >> 60 == 0: found.append(key)
        i += 1
    return found


def plain_keys(count):
    """As many keys, of no pattern."""
    return [f'k{i:06d}' for i in random.Random(33).sample(range(10**6), count)]


def guesses(keys=alike_keys, count=64, turns=400):
    """Three members add to sets in turn, whose names have one hash, and hear each other: entries of all sets are in the log."""
    k = keys(count)
    pairs = [f'resend {a} {b}' for a in range(3) for b in range(3) if a != b]
    s = ['store 3 64 65535']
    for i in range(turns):
        s += [f'do {r} awset:{k[(i * 24 + 3 * j + r) % count]} add v{(i + j) % 50}' for j in range(8) for r in range(3)] + pairs
        if i % 4 == 3: s += [f'beat {r}' for r in range(3)] + pairs
    return s


# Each trap's word, what it is, and what makes its lines.
TRAPS = {
    "marks": ("512 marks wait for 512 entries", marks),
    "outbox": ("an outbox that is known, resent", outbox),
    "logask": ("a set of 1024 log entries, asked", logask),
    "readd": ("30000 settled values, added again", readd),
    "resettle": ("settle, where nothing can be stable", resettle),
    "flags": ("30000 flags, on and then off", flags),
    "logs": ("a log of 1024 entries, listed", logs),
    "regs": ("a register, written in turn", regs),
    "deletes": ("1024 deletes in the log, asked", deletes),
    "alike": ("2000 values of one hash, added again", alike),
    "guesses": ("64 sets of one hash in the log", guesses),
}
