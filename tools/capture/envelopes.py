"""SPNEGO envelopes, written and read by ./negoex (`wrap` and `unwrap`)."""
import re
from collections import namedtuple

from asking import NoAnswer, asked, save
from messages import letter
from ours import digits, written

NEGOEX = '2B06010401823702021E'
KERBEROS = '2A864886F712010202'
STATE_DONE, STATE_GOES_ON, STATE_REJECTED, STATE_ASKS_MIC = 0, 1, 2, 3

# What an envelope says; `refused` is the line of the refusal, if there is one. The token's messages are those of its listing.
Envelope = namedtuple('Envelope', 'mechanisms state mic token messages refused')
# A message of a token: its place there, its type, its schemes' letters, the octets of its exchange or checksum, and the checksum's type.
Message = namedtuple('Message', 'at kind schemes octets checksum_type')


def wrap(lines, keep):
    """The envelope of a text, which README.md explains."""
    save(keep + '.text', ''.join(line + '\n' for line in lines).encode())
    _, text = asked(['./negoex', 'wrap', keep + '.text'], keep)
    if not text.startswith('wrote '):
        raise NoAnswer(f'./negoex wrap writes no envelope; {keep} has what it says')
    return written(text)


def wrap_first(mechanisms, token, keep):
    """A NegTokenInit; it has no token where there is none."""
    return wrap(['init'] + ['mechanism ' + one for one in mechanisms] + token_lines(token), keep)


def wrap_later(state, token, keep, names=False, mic=b''):
    """A NegTokenResp, which names NEGOEX if `names` is true."""
    named = ['mechanism ' + NEGOEX] if names else []
    return wrap(['resp', f'state {state}'] + named + token_lines(token) + ([f'checksum {digits(mic)}'] if mic else []), keep)


def token_lines(token):
    return ['token ' + digits(token)] if token else []


def mechanism_list(mechanisms):
    """The octets that a mechListMIC is over: the list of mechanisms, in DER. Below 128 octets a length is one octet."""
    listed = b''.join(bytes([0x06, len(one) // 2]) + bytes.fromhex(one) for one in mechanisms)
    return bytes([0x30, len(listed)]) + listed


def unwrap(octets, keep):
    save(keep + '.spnego', octets)
    _, text = asked(['./negoex', 'unwrap', keep + '.spnego'], keep)
    outer, inner = (text.split('\nmessage ', 1) + [''])[:2]
    refused = re.search(r'^refused .*', text, re.MULTILINE)
    state = re.search(r'^state (\d+)', outer, re.MULTILINE)
    mic = re.search(r'^checksum ([0-9A-F]+)', outer, re.MULTILINE)
    place = re.search(r'^token at=(\d+) length=(\d+)', outer, re.MULTILINE)
    if not refused and not outer.startswith('envelope '):
        raise NoAnswer(f'./negoex unwrap says nothing of an envelope; {keep} has what it says')
    at, length = map(int, place.groups()) if place else (0, 0)
    token = octets[at:at + length]
    return Envelope(re.findall(r'^mechanism \d+ (\S+)', outer, re.MULTILINE), int(state[1]) if state else None,
                    bytes.fromhex(mic[1]) if mic else b'', token,
                    [message(token, one) for one in inner.split('\nmessage ') if one], refused[0] if refused else '')


def message(token, listing):
    """A message, by its lines in the token's listing."""
    at, kind = int(re.search(r'\bat=(\d+)', listing)[1]), int(re.search(r'\btype=(\d+)', listing)[1])
    schemes = [letter(one) for one in re.findall(r'^scheme \d+ (\S+)', listing, re.MULTILINE)]
    part = re.search(r'^(?:exchange|checksum type=(-?\d+)) at=(\d+) length=(\d+)', listing, re.MULTILINE)
    if part is None:
        return Message(at, kind, schemes, b'', None)
    start = at + int(part[2])
    return Message(at, kind, schemes, token[start:start + int(part[3])], int(part[1]) if part[1] else None)
