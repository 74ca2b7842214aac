#!/usr/bin/env python3
"""damage.py FROM TO NUMBER

Writes NUMBER damaged copies of the tokens in FROM into TO: octets and four-octet numbers changed, tokens cut, joined and repeated. The same each time.
"""
import os, random, sys

NUMBERS = [0, 1, 2, 7, 8, 12, 16, 19, 20, 21, 40, 63, 64, 65, 72, 79, 80, 95, 96, 97, 108, 112, 65535, 65536, 0x7FFFFFFF, 0x80000000, 0xFFFFFFF0, 0xFFFFFFFE, 0xFFFFFFFF]


def damaged(r, tokens):
    token = bytearray(r.choice(tokens))
    for _ in range(r.choice([1, 1, 1, 2, 3])):
        way = r.randrange(8)
        at = r.randrange(len(token)) if token else 0
        if way < 3 and token:
            token[at] = r.choice([0, 1, 0xFF, token[at] ^ 1 << r.randrange(8), r.randrange(256)])
        elif way < 6 and len(token) >= 112:
            at = r.choice([8, 12, 16, 20, 56, 60, 64, 68, 72, 80, 84, 88, 92, 4 * r.randrange(len(token) // 4)])
            token[at:at + 4] = r.choice(NUMBERS).to_bytes(4, 'little')
        elif way == 6:
            del token[r.randrange(len(token) + 1):]
        else:
            token += r.choice(tokens)[:r.randrange(1, 200)]
    return bytes(token[:70000])


def main(source, target, number):
    tokens = [t for t in (open(os.path.join(source, n), 'rb').read() for n in sorted(os.listdir(source))) if len(t) < 2000]
    r = random.Random(20)
    for k in range(int(number)):
        open(os.path.join(target, 'damaged-%05d' % k), 'wb').write(damaged(r, tokens))


if __name__ == '__main__':
    if len(sys.argv) != 4:
        sys.exit(__doc__)
    main(*sys.argv[1:])
