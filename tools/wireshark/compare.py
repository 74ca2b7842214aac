#!/usr/bin/env python3
"""compare.py FOLDER ENVELOPES TSHARK-WORD ..

Compares what tshark, called by the words given, shows of the captures in FOLDER (captures.py made them) with what the programs in crates/*/out say: for each token
the listing's lines, or the refusal's number and place, as `list` prints them; and of a refusal the octets at fault, as tools/explain.sh says them. The token in an
envelope is cut out where `unwrap` says that it stands.
"""
import os, re, subprocess, sys

FIELDS = ['refused', 'refused.at', 'fault.place', 'fault.length', 'differs', 'line']


def run(program, path):
    return subprocess.run([f'crates/{program}/out/{program}'], input=path + '\n', stdout=subprocess.PIPE, text=True, check=True).stdout


def listing(path):
    return run('list', os.path.abspath(path)).splitlines()


def explained(path, number, place):
    """The octets that the front door points at: the first that breaks its rule, where lines say so."""
    lines = subprocess.run(['sh', 'tools/explain.sh', 'token', path, str(number), str(place)], stdout=subprocess.PIPE, text=True, check=True).stdout.splitlines()[1:]
    octets = [l for l in lines if re.match(r'octets? \d', l)]
    if number == 11:
        octets = [l for l in octets if 'BREAKS' in l]
    m = re.match(r'octets? (\d+)(?: to (\d+))?', octets[0])
    first = int(m.group(1))
    return first, int(m.group(2) or first) - first + 1


def shown(tshark, capture):
    """Of each packet with a token what the plugin shows: a list of fields, each a list of its values."""
    words = tshark + ['-r', capture, '-Y', 'negoex_proved', '-T', 'fields', '-E', 'occurrence=a', '-E', 'aggregator=|', '-E', 'separator=/t', '-e', 'frame.number']
    for field in FIELDS:
        words += ['-e', 'negoex_proved.' + field]
    done = subprocess.run(words, stdout=subprocess.PIPE, stderr=subprocess.PIPE, text=True)
    if done.returncode or re.search(r'Sanitizer|runtime error', done.stderr):
        sys.exit('compare: tshark on %s: %s' % (capture, done.stderr[-2000:]))
    for row in done.stdout.splitlines():
        cells = row.split('\t')
        yield {name: cell.split('|') if cell else [] for name, cell in zip(FIELDS, cells[1:])}


def differs(row, path, size, deep):
    """In words, where a packet and the program disagree; None where they don't."""
    lines = listing(path)
    m = re.fullmatch(r'refused (\d+) at=(\d+)', lines[0])
    if not m:
        return None if row['line'] == lines and not row['refused'] else 'lines'
    number, place = int(m.group(1)), int(m.group(2))
    if (row['refused'], row['refused.at']) != ([m.group(1)], [m.group(2)]) or row['line']:
        return 'refusal %s, and not %s' % (row['refused'] + row['refused.at'], lines[0])
    fault = (int(row['fault.place'][0]), int(row['fault.length'][0]))
    if number == 1:
        right = (65535, 1)
    elif number == 2:
        right = (place, size - place)
    elif deep:
        right = explained(path, number, place)
    else:
        right = fault
    return None if fault == right else 'octets at fault %s, and not %s' % (fault, right)


def token_of(envelope, folder):
    """The path of the token of an envelope, cut out where `unwrap` says; None where it has none, or no NEGOEX token."""
    lines = run('unwrap', os.path.abspath(envelope)).splitlines()
    if lines == ['refused 1 at=0']:  # an envelope above 65,535 octets; its token stands beside the examples too
        return os.path.join('crates/examples/data', os.path.basename(envelope).replace('.spnego', '.negoex'))
    at = next((l for l in lines if l.startswith('token ')), None)
    if not at or not re.match(r'(message|refused) ', lines[-1]) and not lines[-1].startswith('end '):
        return None
    place, length = map(int, re.fullmatch(r'token at=(\d+) length=(\d+)', at).groups())
    path = os.path.join(folder, os.path.basename(envelope) + '.token')
    open(path, 'wb').write(open(envelope, 'rb').read()[place:place + length])
    return path


def main(folder, envelopes, tshark):
    wrong = 0
    for name in ('http', 'ldap', 'smb2', 'late', 'raw', 'both'):
        files = open(os.path.join(folder, name + '.order')).read().split('\n')[:-1]
        if name in ('raw', 'both'):
            paths = [os.path.join(folder, 'tokens', f) for f in files]
        else:
            paths = [p for p in (token_of(os.path.join(envelopes, f), folder) for f in files) if p]
        rows = list(shown(tshark, os.path.join(folder, name + '.pcap')))
        read = refused = silent = other = 0
        if len(rows) != len(paths):
            print('compare: %s: tshark shows %d tokens of %d' % (name, len(rows), len(paths)))
            wrong += 1
        for k, (row, path) in enumerate(zip(rows, paths)):
            why = differs(row, path, os.path.getsize(path), True)
            wrong += why is not None
            refused += bool(row['refused'])
            read += not row['refused']
            silent += bool(row['refused'] and row['differs'])
            other += bool(not row['refused'] and row['differs'])
            if why:
                print('compare: %s: %s: %s' % (name, os.path.basename(path), why))
        print('compare: %s: %d tokens read, %d of them shown otherwise by the built-in dissector; %d refused, %d of them shown by it without complaint' % (name, read, other, refused, silent))
    if wrong:
        sys.exit('compare: %d differ' % wrong)
    print('compare: none differ')


if __name__ == '__main__':
    if len(sys.argv) < 4:
        sys.exit(__doc__)
    main(sys.argv[1], sys.argv[2], sys.argv[3:])
