"""The workloads of `bench/scripts`: what a script is of, and the lines of its script. Behind them those of durable replicas."""

import random

from made import frame as frame_of, gen

# A script has at most so many bytes.
CAP = 4194304


def one_member():  # the limit is 65535 messages: later lines answer `end`
    s, size, i = ['store 1 64 65535'], 17, 0
    while True:
        l = f'do 0 counter:k{i % 100} inc {i % 1000}'
        if size + len(l) + 1 > CAP: return s
        s.append(l); size += len(l) + 1; i += 1


def one_member_asks(own=65000):  # own operations, then questions up to 4 MB
    s, size, i = ['store 1 64 65535'], 17, 0
    while True:
        l = f'do 0 counter:k{i % 100} inc {i % 1000}' if i < own else f'ask 0 counter:k{i % 100}'
        if size + len(l) + 1 > CAP: return s
        s.append(l); size += len(l) + 1; i += 1


def write_heavy():  # each member in turn adds; every 8 operations the members resend round, with beats
    R = random.Random(3)
    s, size, i = ['store 3 64 65535'], 16, 0
    while True:
        ls = [f'do {(i + j) % 3} awset:big add value-{R.randrange(1000):04d}' for j in range(8)]
        i += 8
        ls += [f'resend {a} {b}' for a in range(3) for b in range(3) if a != b]
        if i % 32 == 0: ls += ['beat 0', 'beat 1', 'beat 2']
        k = sum(len(l) + 1 for l in ls)
        if size + k > CAP: return s
        s += ls; size += k


def ask_heavy():
    s = ['store 1 64 65535'] + [f'do 0 awset:big add value-{i * 7919 % 1000:04d}' for i in range(1000)]
    return s + ['ask 0 awset:big'] * 20000


def frame(n, k, tag, code, key=b'', value=b'', version=1):
    return frame_of(version, n, k, tag, code, key, value).hex()


def deep_raw(n=3, w=64, total=20000, version=1, limit=65535):
    # members 1.. send batches of operations to replica 0; each batch comes in reverse order, so it is kept
    # until its first message comes. 0's own beats never reach the forged members, so nothing of them is
    # acknowledged by us: each batch's first message names what was seen, and makes the last batch stable.
    s, c, made = [f'store {n} {w} {limit}'], [0] * n, 0
    while made < total:
        old = c[:]
        frames = []
        for k in range(1, n):
            for j in range(1, w + 1):
                tag = old[:]; tag[k] = old[k] + j
                key = b's'; val = b'v%d' % ((old[k] + j) % 100)
                frames.append((k, f'raw 0 {frame(n, k, tag, 1, key, val, version)}'))
            c[k] = old[k] + w
        for j in range(w - 1, -1, -1):
            for k in range(1, n): s.append(frames[(k - 1) * w + j][1]); made += 1
        # each member shows by a no-op that it saw the batches: then they are stable
        for k in range(1, n):
            c[k] += 1
            tag = [c[x] if x == k else old[x] + w if x else 0 for x in range(n)]
            s.append(f'raw 0 {frame(n, k, tag, 0, version=version)}'); made += 1
    return s


def chain_raw(n=16, w=64):
    # one chain through all members, message i happened after message i - 1, brought in reverse order:
    # each line but the last is kept, the last delivers all. Small chains, many of them, then the largest.
    s, c = [f'store {n} {w} 65535'], [0] * n
    for length in [15 * 63] * 20:
        ls = []
        for i in range(length):
            k = 1 + i % (n - 1)
            c[k] += 1
            val = b'v%d' % i
            ls.append(f'raw 0 {frame(n, k, c, 1, b"s", val)}')
        s += ls[::-1]
        for k in range(1, n):
            c[k] += 1
            s.append(f'raw 0 {frame(n, k, c, 0)}')
    return s


def full_windows(times, ops=None, n=16, w=64):
    R = random.Random(6)
    kinds = [('awset', ['add', 'rmv']), ('rwset', ['add', 'rmv']), ('mvreg', ['write'])]
    s = [f'store {n} {w} 65535']
    for t in range(times):
        for r in range(n):
            for _ in range(w):
                k, ws = R.choice(kinds)
                s.append(f'do {r} {k}:k{R.randrange(2)} {R.choice(ws)} v{R.randrange(64)}')
        s.append('settle')
    return s + ['size 0', 'ask 0 awset:k0', 'ask 15 rwset:k1', 'ask 7 mvreg:k0']


def many_items():  # growth in items: one member, 60000 different values of one set
    return ['store 1 64 65535'] + [f'do 0 awset:big add value-{i * 7919 % 60000:05d}' for i in range(60000)] + ['size 0']


def many_objects():
    return ['store 1 64 65535'] + [f'do 0 counter:k{i * 7919 % 60000:05d} inc 1' for i in range(60000)] + ['size 0']


def clears():  # a large settled set beside which another is cleared
    return ['store 1 64 65535'] + [f'do 0 awset:big add value-{i:04d}' for i in range(5000)] + ['do 0 awset:small add x', 'do 0 awset:small clear'] * 15000


def long_values():  # values of 4096 bytes: adds with resends round, asks of sets of at most 4 values, 4 MB
    s, size, i = ['store 3 64'], 11, 0
    while True:
        v = f'{i // 4 * 7919 % 4}-'.ljust(4096, 'v')
        ls = [f'do {i % 3} awset:k{i % 4} add {v}']
        i += 1
        if i % 4 == 0: ls += [f'resend {a} {b}' for a in range(3) for b in range(3) if a != b] + ['beat 0', 'beat 1', 'beat 2']
        ls.append(f'ask {i % 3} awset:k{i // 3 % 4}')
        k = sum(len(l) + 1 for l in ls)
        if size + k > CAP: return s
        s += ls; size += k


def long_members():  # many messages of one member beyond 65535
    return ['store 2 64 1000000'] + [l for i in range(24000) for l in ([f'do 0 counter:k{i % 100} inc {i % 1000}'] * 4 + ['resend 1 0', 'beat 1', 'resend 0 1'])]


def many_epochs(changes=2000):  # an epoch after each few operations; a fourth member comes now and then, and leaves again
    R = random.Random(13)
    s, n = ['store 3 4'], 3
    for i in range(changes):
        s += [f'do {R.randrange(n)} awset:s add v{R.randrange(16)}', f'do {R.randrange(n)} awset:s rmv v{R.randrange(16)}',
              f'do {R.randrange(n)} counter:c inc {R.randrange(100)}', 'settle']
        n = 4 if i % 250 == 249 else 3  # who comes gets a copy of a journal, which grows with what was done
        s += [f'members {n}', f'ask {n - 1} awset:s']
    return s + ['size 0', 'ask 0 counter:c']


def change_with_items(values=60000, changes=10):  # two members settle many values of one set, and then their members change
    s = ['store 2 64 65535']
    for i in range(values):
        s.append(f'do 0 awset:big add value-{i * 7919 % values:05d}')
        if i % 64 == 63: s += ['resend 1 0', 'beat 1', 'resend 0 1']
    s.append('settle')
    for i in range(changes):
        n = 3 - i % 2
        s += [f'members {n}', f'size {n - 1}', f'do {n - 1} awset:big rmv value-{i:05d}', f'do 0 awset:big add new-{i}', f'do 1 counter:c inc {i}', 'settle']
    return s + ['size 0', 'size 1', 'ask 1 counter:c']


def letter(i): return 'etaoinshrdlu'[i * 7919 % 12]


def typed(elements=20000):  # one member types at the end of a list
    places = ['head'] + [f'0.0.{i + 1}' for i in range(elements)]
    return ['store 1 64 65535'] + [f'do 0 list:d ins {letter(i)} {places[i]}' for i in range(elements)]


def scattered(elements=20000, limit=65535):  # one member puts elements in at random places
    R = random.Random(17)
    s = [f'store 1 64 {limit}', 'do 0 list:d ins x head']
    return s + [f'do 0 list:d ins {letter(i)} 0.0.{1 + R.randrange(i)}' for i in range(1, elements)]


def scattered_whole():  # the same up to 4 MB
    s, size = [], 0
    for l in scattered(200000, 1000000):
        size += len(l) + 1
        if size > CAP: return s
        s.append(l)


def typed_in_turn(elements=20000, run=16):  # two members type at the end in turn, and are given what the other typed
    s, sent, place = ['store 2 64 65535'], [0, 0], 'head'
    for i in range(0, elements, run):
        r = i // run % 2
        for j in range(i, i + run):
            s.append(f'do {r} list:d ins {letter(j)} {place}')
            sent[r] += 1
            place = f'0.{r}.{sent[r]}'
        s += [f'give {1 - r} {r} {number}' for number in range(sent[r] - run + 1, sent[r] + 1)]
    return s + ['ids 0 list:d', 'ids 1 list:d']


def typed_at_once(elements=20000, run=8):  # three members type at one place, and are then given what the others typed there meanwhile
    s, sent = ['store 3 64 65535', 'do 0 list:d ins x head', 'give 1 0 1', 'give 2 0 1'], [1, 0, 0]
    for i in range(0, elements, 3 * run):
        new = []
        for r in range(3):
            place = '0.0.1'
            for j in range(run):
                s.append(f'do {r} list:d ins {letter(i + j)} {place}')
                sent[r] += 1
                place = f'0.{r}.{sent[r]}'
                new.append((r, sent[r]))
        s += [f'give {r} {k} {number}' for k, number in new for r in range(3) if r != k]
    return s + [f'ids {r} list:d' for r in range(3)]


def deleted(elements=20000):  # a list that was typed, each of whose elements is deleted, in random order
    order = list(range(1, elements + 1))
    random.Random(19).shuffle(order)
    return typed(elements) + [f'do 0 list:d del 0.0.{number}' for number in order] + ['tombs 0 list:d', 'size 0']


def read(elements=20000, asks=50):  # a list whose elements are at random places, read again and again
    return scattered(elements) + ['ask 0 list:d', 'ids 0 list:d', 'tombs 0 list:d'] * asks


def comment(): return ['# ' + 'x' * 4000000, 'store 1 1']


def heard(turns=2500, stops=()):  # durable: three members add in turn and hear of each other, and each is stopped after some turns
    s, sent = ['keep 3 64 65535'], [0, 0, 0]
    for i in range(turns):
        new = []
        for j in range(i * 8, i * 8 + 8):
            s.append(f'do {j % 3} awset:big add value-{j * 7919 % 1000:04d}')
            sent[j % 3] += 1
            new.append((j % 3, sent[j % 3]))
        s += [f'give {r} {k} {number}' for k, number in new for r in range(3) if r != k]
        if i % 4 == 3:
            for k in range(3): s.append(f'beat {k}'); sent[k] += 1
            s += [f'give {r} {k} {sent[k]}' for k in range(3) for r in range(3) if r != k]
        if i + 1 in stops: s += [f'stop {r} 4294967295' for r in range(3)]
    return s


def stopped(turns=1000):  # each member at each quarter
    return heard(turns, [turns * quarter // 4 for quarter in (1, 2, 3)])


def opened(records=60000):  # one member, opened with all that it sent
    return ['keep 1 64 65535'] + [f'do 0 awset:big add value-{i * 7919 % records:05d}' for i in range(records)] + ['stop 0 0']


def without_stops(script): return [line for line in script if not line.startswith('stop ')]


def as_store(script): return [script[0].replace('keep', 'store')] + without_stops(script[1:])


def replayed(script):
    """How much of a script its stops replay: of all its other lines those at the replica that is stopped, before each stop."""
    at, again = {}, 0
    for line in script[1:]:
        verb, r = line.split(' ')[:2]
        if verb == 'stop': again += at[r]
        else: at[r] = at.get(r, 0) + 1
    return again / sum(at.values())


# Each workload's word, what it is, and what makes its lines.
WORKLOADS = {
    "a": ("one member, 4 MB of inc", one_member),
    "a2": ("65000 inc, then asks, 4 MB", one_member_asks),
    "b1": ("gen 7 20000 16 64", lambda: gen(7, 20000, 16, 64)),
    "b2": ("gen 7 2000 3 4", lambda: gen(7, 2000, 3, 4)),
    "b3": ("gen 7 20000 3 4", lambda: gen(7, 20000, 3, 4)),
    "b4": ("gen 7 100000 16 64", lambda: gen(7, 100000, 16, 64)),
    "c": ("adds of 3 members, 4 MB", write_heavy),
    "d": ("20000 asks of 1000 values", ask_heavy),
    "e": ("raw, batches reversed", deep_raw),
    "e2": ("raw, chains of 945 reversed", chain_raw),
    "e3": ("e in frames of version 2", lambda: deep_raw(version=2)),
    "e4": ("e3, limit 1000000", lambda: deep_raw(version=2, limit=1000000)),
    "f": ("settle, 16 full windows", lambda: full_windows(1)),
    "f2": ("the same 8 times", lambda: full_windows(8)),
    "g": ("60000 settled values", many_items),
    "h": ("60000 counters", many_objects),
    "i": ("30000 ops by 5000 values", clears),
    "j": ("one line of 4 MB", comment),
    "k": ("values of 4096 bytes, 4 MB", long_values),
    "l": ("96000 inc, limit 1000000", long_members),
    "m1": ("2000 epochs of 3 members", many_epochs),
    "m2": ("10 changes, 60000 settled values", change_with_items),
    "n1": ("20000 elements typed at the end", typed),
    "n2": ("the same by two members in turn", typed_in_turn),
    "n3": ("20000 elements at random places", scattered),
    "n4": ("3 members at one place at once", typed_at_once),
    "n5": ("20000 elements typed and deleted", deleted),
    "n6": ("20000 elements, read 50 times", read),
    "n7": ("ins at random places, 4 MB", scattered_whole),
}

# The same of durable replicas. Each is measured beside the same script of a store, without its stops.
DURABLE = {
    "ka": ("adds of 3 durable replicas, heard", heard),
    "ks": ("the same, each stopped three times", stopped),
    "ko": ("opening with 60000 records", opened),
}
