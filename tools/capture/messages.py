"""The messages of a token, and the words of docs/PEERS.md for kinds and schemes."""
import struct

SCHEMES = {
    'A': '00112233-4455-6677-8899-AABBCCDDEEFF', 'B': '0D53335C-F9EA-4D0D-B2EC-4AE3786EC308',
    'C': '0CD065B1-2E17-4593-8F60-12FE01807FC1', 'D': 'FFFFFFFF-FFFF-FFFF-FFFF-FFFFFFFFFFFF',
    'E': '00000000-0000-0000-0000-000000000000', 'F': '11223300-5500-7744-6688-99AABBCCDDEE',
}
LETTERS = {text: one for one, text in SCHEMES.items()}
KINDS = ['NEGO', 'NEGO', 'META_DATA', 'META_DATA', 'CHALLENGE', 'AP_REQUEST', 'VERIFY', 'ALERT']


def number(message, at):
    return struct.unpack_from('<I', message, at)[0]


def kind(message):
    return number(message, 8)


def is_nego(token):
    return len(token) >= 96 and kind(token) <= 1


def split(token):
    """A token's messages, by their lengths as stored; one below 40 counts as 40, so that this ends."""
    messages = []
    while len(token) >= 40:
        length = max(40, number(token, 20))
        messages.append(token[:length])
        token = token[length:]
    return messages


def id_text(octets):
    """An id in its usual text: the first three groups are byte-reversed."""
    text = (octets[3::-1] + octets[5:3:-1] + octets[7:5:-1] + octets[8:]).hex().upper()
    return '-'.join((text[:8], text[8:12], text[12:16], text[16:20], text[20:]))


def letter(text):
    """The letter of a scheme that is given in its usual text; the text itself where it has none."""
    return LETTERS.get(text.upper(), text.upper())


def listed(nego):
    """The letters of the schemes that a NEGO lists."""
    offset, count = struct.unpack_from('<IH', nego, 80)
    return ', '.join(letter(id_text(nego[at:at + 16])) for at in range(offset, offset + 16 * count, 16))


def scheme(message):
    """The letter of the scheme that a message other than a NEGO names."""
    return letter(id_text(message[40:56]))


def alerts(message):
    """The alerts of an ALERT, each with its type and its value."""
    offset, count = struct.unpack_from('<IH', message, 60)
    elements = [struct.unpack_from('<III', message, at) for at in range(offset, offset + 12 * count, 12)]
    return [(one, message[at:at + size]) for one, at, size in elements]


def kind_word(message):
    return KINDS[kind(message)]


def with_schemes(message):
    """A message's kind, with the schemes that it names."""
    return f'{kind_word(message)} ({listed(message) if is_nego(message) else scheme(message)})'
