"""Asks MIT (through drive.c and mech.c), Samba (ndrdump) and tshark, and puts what they answer into short words."""
import glob
import os
import re
import struct

from asking import NoAnswer, asked, octets_of, save
from messages import kind, kind_word, letter, listed, number, scheme, split

# MIT's minor statuses for NEGOEX are this number and a small one; the words are ours.
MIT_BASE = 0x20000000
MIT_WORDS = {6: 'signature', 7: 'type', 8: 'size', 9: 'conversation', 17: 'no NEGO', 19: 'no common scheme', 21: 'checksum scheme',
             22: 'checksum', 23: 'critical extension', 24: 'version', 25: 'sequence'}
ROUTINE_WORDS = {'1': 'bad mechanism', '6': 'MIC', '9': 'defective token', '13': 'failure'}
SAMBA_WORDS = {'Buffer Size Error': 'size', 'Bad Switch': 'type', 'Allocation Error': 'no memory'}
NDRDUMP_TYPE = ['negoex', 'negoex_MESSAGE_ARRAY', 'struct']
# Packets of link type 147 are said to be NEGOEX tokens.
TSHARK = ['tshark', '-o', 'uat:user_dlts:"User 0 (DLT=147)","negoex","0","","0",""', '-r']
FIELDS = ['negoex.message.type', 'negoex.auth_scheme', 'negoex.exchange_vec_byte_count', 'negoex.exchange_vec_pad',
          'negoex.checksum_type', '_ws.malformed']


def driven(drive, words, keep, environment):
    """The status of a run of drive.c, and the last line that it prints, which is the last call's."""
    status, text = asked([drive] + words, keep, environment)
    lines = text.splitlines()
    if status not in (0, 1) or not lines:
        raise NoAnswer(f"MIT's library could not be asked; {keep} has what was printed")
    return status, lines[-1].split()


def mit(drive, words, keep, environment):
    """The state of the end that was asked (or its refusal), and the messages that it sent."""
    sent = keep + '-next'
    _, line = driven(drive, words + [sent], keep, environment)
    refused = mit_refusal(line)
    return (refused, []) if refused else (line[3], split(octets_of(sent)) if os.path.exists(sent) else [])


def mit_refusal(line):
    """The refusal in the words of a turn's line (ends.h), in our words; empty where there is none."""
    if line[3] != 'error':
        return ''
    fields = dict(word.split('=') for word in line if re.fullmatch(r'\w+=\d+', word))
    routine = ROUTINE_WORDS.get(fields['routine'], f'routine error {fields["routine"]}')
    return 'refused: ' + MIT_WORDS.get(int(fields['minor']) - MIT_BASE, routine)


def sends(messages):
    return ''.join(f', sends {kind_word(message)}' for message in messages)


def mit_acceptor(drive, path, letters, environment):
    """What an acceptor that lists `letters` makes of the token as its first."""
    state, messages = mit(drive, ['offer', path, letters], path + '.mit-acceptor', environment)
    if not messages:
        return state
    return f'lists {listed(messages[0])}{sends(messages[1:])}' + (', is done' if state == 'done' else '')


def mit_initiator(drive, path, letters, environment):
    """What an initiator that lists `letters` makes of the token as a reply; its own first token; and the reply as it was handed
    over. Its mechanism is done when it has the acceptor's first token."""
    keep = path + '.mit-initiator'
    handed = [keep + '-first', keep + '-reply']
    state, messages = mit(drive, ['answer', path, letters] + handed, keep, {**environment, 'CAPTURE_HOPS': '2'})
    words = f'chooses {scheme(messages[0])}{sends(messages)}' if messages else state
    return [words] + [octets_of(one) for one in handed]


def mit_conversation(drive, folder, one):
    """The files of a conversation of MIT's two ends, one a turn."""
    os.makedirs(folder)
    status, _ = driven(drive, ['converse', folder, *one.lists], folder + '/calls', one.environment)
    if (status == 0) != one.done:
        raise NoAnswer(f"MIT's conversation {one.name} came to another end; {folder}/calls has the calls")
    return sorted(glob.glob(folder + '/*.negoex'))


def samba(path, token):
    _, text = asked(['ndrdump', *NDRDUMP_TYPE, path], path + '.samba')
    status = re.search(r'pull returned (.*)', text)
    if status is None:
        raise NoAnswer(f'ndrdump says nothing of {path}')
    if status[1] != 'Success':
        return 'refused: ' + SAMBA_WORDS.get(status[1], status[1])
    schemes = re.findall(r'array: struct negoex_AUTH_SCHEME\n\s+guid\s+: (\S+)', text)
    extensions = [f'type {int(one, 0):,}' for one in re.findall(r'EXTENSION\n\s+type\s+: .*\((0x[0-9A-F]+|\d+)\)', text)]
    uncounted = re.findall(r'EXTENSION_VECTOR\n\s+array\s+: NULL\n\s+count\s+: \S+ \(([1-9]\d*)\)', text)
    checksums = re.findall(r'CHECKSUM\n\s+header_length.*\n\s+scheme.*\n\s+type\s+: \S+ \((\d+)\)', text)
    exchanges = re.findall(r'EXCHANGE_PAYLOAD\n(?:.*\n){3}\s+blob\s+: DATA_BLOB length=(\d+)', text)
    return 'read' + shown(token, schemes, extensions + [f'count {int(one):,}' for one in uncounted], checksums, exchanges)


def samba_writes(path):
    """The octets that Samba writes for what it reads in the token."""
    _, text = asked(['ndrdump', '--validate', '--dump-data', *NDRDUMP_TYPE, path], path + '.samba-writes')
    found = re.search(r'^(\d+) bytes generated \(validate\)\n((?:\[[0-9A-F]+\].*\n)+)', text, re.MULTILINE)
    if found is None:
        raise NoAnswer(f'ndrdump writes nothing for {path}')
    length, octets = int(found[1]), b''
    for line in found[2].splitlines():
        pairs = line.split('] ')[1].split()
        octets += bytes.fromhex(''.join(pairs[:min(16, length - len(octets))]))
    return octets


def shown(token, schemes, extensions, checksums, exchanges):
    """What a reader shows, where it is worth a word: schemes other than A alone, extensions, checksum types, and exchanges whose
    length is not the stored one or not that of the octets behind the header."""
    letters = [letter(one) for one in schemes]
    lengths = [{len(one) - 64, number(one, 60)} for one in split(token) if 2 <= kind(one) <= 5]
    parts = [] if letters in ([], ['A']) else ['schemes ' + ', '.join(letters)]
    parts += [f'extension {one}' for one in extensions]
    parts += [f'checksum type {int(one):,}' for one in checksums]
    parts += [f'exchange of {int(one):,}' for one, length in zip(exchanges, lengths) if {int(one)} != length]
    return ''.join('; ' + part for part in parts)


def tshark(tokens, stem):
    """Its words for each token: all tokens stand in one capture, one a packet."""
    capture = stem + '.pcap'
    packets = [struct.pack('<IIII', 0, 0, len(token), len(token)) + token for token in tokens]
    save(capture, struct.pack('<IHHiIII', 0xA1B2C3D4, 2, 4, 0, 0, 262144, 147) + b''.join(packets))
    options = [word for field in FIELDS for word in ('-e', field)]
    _, lines = asked(TSHARK + [capture, '-T', 'fields'] + options, stem + '.tshark-fields')
    _, text = asked(TSHARK + [capture, '-V'], stem + '.tshark')
    lines, texts = lines.splitlines(), re.split(r'^Frame \d+: ', text, flags=re.MULTILINE)[1:]
    if not len(lines) == len(texts) == len(tokens):
        raise NoAnswer(f'tshark does not show each of the {len(tokens)} packets; {stem}.tshark has what it shows')
    return [tshark_words(*one) for one in zip(tokens, lines, texts)]


def tshark_words(token, line, text):
    values = [value.split(',') if value else [] for value in (line.split('\t') + [''] * len(FIELDS))[:len(FIELDS)]]
    types, schemes, exchanges, pads, checksums, malformed = values
    extensions = [f'at {int(one):,}' for one in re.findall(r'Extension: \d+ bytes at (\d+)', text)]
    if malformed:
        return 'malformed' + shown(token, [], extensions, [], [])
    if not types:
        return 'nothing shown'
    # The last schemes are those of the messages behind the NEGO, or of all where there is none.
    named = sum(1 for one in split(token) if len(one) >= 64 and 2 <= kind(one) <= 7)
    padded = ''.join(f', pad {one}' for one in pads if one != '0000')
    return 'read' + shown(token, schemes[:len(schemes) - named], extensions, checksums, exchanges) + padded
