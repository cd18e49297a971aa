"""Made scripts and frames, for `bench/scripts`."""

CODES = [('awset', 'add'), ('awset', 'rmv'), ('awset', 'clear'), ('rwset', 'add'), ('rwset', 'rmv'), ('rwset', 'clear'),
         ('ewflag', 'enable'), ('ewflag', 'disable'), ('ewflag', 'clear'), ('dwflag', 'enable'), ('dwflag', 'disable'), ('dwflag', 'clear'),
         ('mvreg', 'write'), ('mvreg', 'clear'), ('counter', 'inc'), ('counter', 'dec'), ('rcounter', 'inc'), ('rcounter', 'dec'), ('rcounter', 'clear')]

KINDS = ['awset', 'rwset', 'ewflag', 'dwflag', 'mvreg', 'counter', 'rcounter']

VALUED, COUNTED = ('add', 'rmv', 'write'), ('inc', 'dec')

def frame(version, n, k, tag, code, key=b'', value=b'', amount=0, epoch=0):
    wide = version == 2
    num = lambda f: len(f).to_bytes(2, 'big') if wide else bytes([min(len(f), 255)])
    b = bytes([version, k, n, code]) + (epoch.to_bytes(4, 'big') if wide else b'') + b''.join(x.to_bytes(4, 'big') for x in tag)
    if code:
        b += num(key) + key
        word = CODES[code - 1][1]
        if word in VALUED: b += num(value) + value
        if word in COUNTED: b += amount.to_bytes(4, 'big')
    return b

def gen(seed, count, n, w):
    state = [seed]
    def draw(m):
        state[0] = (state[0] * 1103515245 + 12345) % 2147483648
        return state[0] // 65536 % m
    s = [f'store {n} {w} 65535']
    for _ in range(count):
        r = draw(n); d = draw(8)
        if d < 4:
            kind, word = CODES[draw(19)]
            l = f'do {r} {kind}:k{draw(2)} {word}'
            s.append(l + (f' v{draw(16)}' if word in VALUED else f' {draw(100)}' if word in COUNTED else ''))
        elif d == 4: k = draw(7); s.append(f'ask {r} {KINDS[k]}:k{draw(2)}')
        elif d == 5: s.append(f'beat {r}')
        elif d == 6: s.append(f'resend {r} {draw(n)}')
        else: k = draw(n); s.append(f'give {r} {k} {1 + draw(20)}')
    return s + ['settle'] + [f'ask 0 {k}:k{i}' for k in KINDS for i in range(2)]
