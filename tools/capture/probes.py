"""What is asked: the probe tokens, in document 01's layouts, and the conversations of MIT's two ends.

`PROBES` and `NUMBERS` are rows of the tables in docs/PEERS.md, and `CONVERSATIONS` are those whose turns are in its last one.
"""
import hashlib
import hmac
import struct
from collections import namedtuple

# A token, what it is, and the environment of the mechanism (see mech.c) at the end of MIT's that is asked about it.
Probe = namedtuple('Probe', 'name words token environment', defaults=({},))
# The lists of the initiator and the acceptor, as letters, the environment of both, and whether both are done at the end.
Conversation = namedtuple('Conversation', 'name lists environment done', defaults=({}, True))

A = bytes.fromhex('33221100554477668899AABBCCDDEEFF')
CONVERSATION = bytes(range(0x41, 0x51))
RANDOM = bytes(range(32))
KEY = bytes(range(1, 17))                      # that of mech.c, for CAPTURE_ETYPE=23
MECHANISM = bytes.fromhex('2B0601040181FD590101')
FIRST = b'T00'
AP_TOKEN = bytes([0x60, 2 + len(MECHANISM) + len(FIRST), 0x06, len(MECHANISM)]) + MECHANISM + FIRST


def heading(kind, sequence, header, length, conversation=CONVERSATION, signature=b'NEGOEXTS'):
    return signature + struct.pack('<IIII', kind, sequence, header, length) + conversation


def nego(schemes=(96, 1), extensions=(0, 0), payload=A, random=RANDOM, version=0, pads=(0, 0), header=96, more=0,
         signature=b'NEGOEXTS'):
    return (heading(0, 0, header, 96 + len(payload) + more, signature=signature) + random + struct.pack('<Q', version)
            + struct.pack('<IHH', *schemes, pads[0]) + struct.pack('<IHH', *extensions, pads[1]) + payload)


def exchange(kind, sequence, payload, vector=None, conversation=CONVERSATION, header=64):
    offset, length = vector or (64, len(payload))
    return heading(kind, sequence, header, 64 + len(payload), conversation) + A + struct.pack('<II', offset, length) + payload


def metadata(sequence, payload=b'meta', vector=None):
    return exchange(2, sequence, payload, vector)


def ap_request(sequence, conversation=CONVERSATION):
    return exchange(5, sequence, AP_TOKEN, conversation=conversation)


def rc4_checksum(octets, usage=25):
    """RFC 4757's checksum, type -138, which counts key usage 23 as 13. MIT takes 25 from an initiator."""
    signing = hmac.new(KEY, b'signaturekey\0', hashlib.md5).digest()
    counted = struct.pack('<I', 13 if usage == 23 else usage)
    return hmac.new(signing, hashlib.md5(counted + octets).digest(), hashlib.md5).digest()


def verify(sequence, before, pad=0, size=20, scheme=1, damage=0):
    value = bytearray(rc4_checksum(before))
    value[0] ^= damage
    return (heading(6, sequence, 80, 80 + len(value)) + A + struct.pack('<IIi', size, scheme, -138)
            + struct.pack('<II', 80, len(value)) + struct.pack('<I', pad) + bytes(value))


def alert(sequence, vector_pad=0, pad=0, count=1):
    return (heading(7, sequence, 72, 92) + A + struct.pack('<i', 0) + struct.pack('<IHH', 72, count, vector_pad)
            + struct.pack('<I', pad) + struct.pack('<III', 1, 84, 8) + struct.pack('<II', 8, 1))


def extension(kind):
    return struct.pack('<iII', kind, 0, 0)


def opening():
    return nego() + ap_request(1)


def with_verify(**changes):
    return opening() + verify(2, opening(), **changes)


def mit_extension(kind):
    """A NEGO whose extension vector stands where MIT's own NEGO has it: offset 86, count 90, then four pad octets."""
    octets = bytearray(nego(payload=A + extension(kind)))
    octets[86:96] = struct.pack('<IHI', 112, 1, 0)
    return bytes(octets)


# The list of each end that is asked about a probe. F is what a reader finds one octet before A in P4.
LISTED = 'AF'
# The acceptor's mechanism is done after one token, and its key is the one that the probes' checksums are made with.
RC4 = {'CAPTURE_HOPS': '1', 'CAPTURE_ETYPE': '23'}


# The worked examples, then the points at which implementations differ.
PROBES = [
    Probe('p1', 'P1: empty', b''),
    Probe('p2', 'P2: 39 octets', nego()[:39]),
    Probe('p3', 'P3: NEGO of 112, scheme A at 96', nego()),
    Probe('p4', 'P4: P3 with scheme offset 95', nego(schemes=(95, 1))),
    Probe('p5', 'P5: P3 with scheme offset 97', nego(schemes=(97, 1))),
    Probe('p6', 'P6: P3 with scheme count 0, offset 4,294,967,295', nego(schemes=(0xFFFFFFFF, 0))),
    Probe('no-scheme', 'P3 with scheme count 0, offset 0', nego(schemes=(0, 0))),
    Probe('p7', 'P7: P3 with scheme count 2, offset 4,294,967,280', nego(schemes=(0xFFFFFFF0, 2))),
    Probe('p8', 'P8: NEGO of 108, no scheme, an extension at 96 of type -2', nego((0, 0), (96, 1), extension(-2))),
    Probe('p9', 'P9: P8 with type 2,147,483,647', nego((0, 0), (96, 1), extension(0x7FFFFFFF))),
    Probe('p10', 'P10: P8 with type -2,147,483,648', nego((0, 0), (96, 1), extension(-0x80000000))),
    Probe('into-header', 'P3 with scheme offset 40, where the random value begins with A',
          nego(schemes=(40, 1), random=A + bytes(16))),
    Probe('wrapped-sum', 'NEGO, metadata with offset 4,294,967,280 and length 80 (64 after a wrap)',
          nego() + metadata(1, b'meta', (0xFFFFFFF0, 80))),
    Probe('long-exchange', 'NEGO, metadata of 4 octets with length 65,540', nego() + metadata(1, b'meta', (64, 65540))),
    Probe('critical', 'NEGO with A and a critical extension, type -2', nego(extensions=(112, 1), payload=A + extension(-2))),
    Probe('not-critical', 'NEGO with A and an extension of type 5', nego(extensions=(112, 1), payload=A + extension(5))),
    Probe('critical-86', 'NEGO with A and type -2, extension vector at 86', mit_extension(-2)),
    Probe('not-critical-86', 'NEGO with A and type 5, extension vector at 86', mit_extension(5)),
    Probe('ap', 'NEGO, AP_REQUEST', opening(), RC4),
    Probe('verify', 'NEGO, AP_REQUEST, VERIFY of checksum type -138', with_verify(), RC4),
    Probe('verify-damaged', 'NEGO, AP_REQUEST, VERIFY with one bit of the checksum changed', with_verify(damage=1),
          {**RC4, 'CAPTURE_DAMAGE': '1'}),
    Probe('verify-alone', 'NEGO, VERIFY', nego() + verify(1, nego()), RC4),
    Probe('alert', 'NEGO, AP_REQUEST, ALERT', opening() + alert(2), RC4),
    Probe('metadata', 'NEGO, metadata for A, AP_REQUEST', nego() + metadata(1) + ap_request(2), RC4),
    Probe('metadata-twice', 'NEGO, metadata for A twice, AP_REQUEST',
          nego() + metadata(1) + metadata(2, b'again') + ap_request(3), RC4),
    Probe('pad-nego-86', 'P3 with pads 86 and 87 nonzero', nego(pads=(0x5AA5, 0))),
    Probe('pad-nego-94', 'P3 with pads 94 and 95 nonzero', nego(pads=(0, 0x5AA5))),
    Probe('pad-verify', 'NEGO, AP_REQUEST, VERIFY with pads 76 to 79 nonzero', with_verify(pad=0x12345678), RC4),
    Probe('pad-alert-66', 'NEGO, AP_REQUEST, ALERT with pads 66 and 67 nonzero', opening() + alert(2, vector_pad=0x5AA5), RC4),
    Probe('alert-none', 'NEGO, AP_REQUEST, ALERT with count 0', opening() + alert(2, count=0), RC4),
    Probe('pad-alert-none', 'NEGO, AP_REQUEST, ALERT with count 0 and pad 66 being 1',
          opening() + alert(2, vector_pad=1, count=0), RC4),
    Probe('pad-alert-68', 'NEGO, AP_REQUEST, ALERT with pads 68 to 71 nonzero', opening() + alert(2, pad=0x12345678), RC4),
]

# A token for each number that the rows above do not give.
NUMBERS = [
    Probe('no-1', '65,536 octets: NEGO, metadata', nego() + metadata(1, bytes(65536 - 176))),
    Probe('no-3', 'NEGO with signature NEGOEXTT', nego(signature=b'NEGOEXTT')),
    Probe('no-4', 'NEGO, a message of type 8', nego() + exchange(8, 1, b'')),
    Probe('no-5', 'NEGO with header length 112', nego(header=112)),
    Probe('no-5-exchange', 'NEGO, AP_REQUEST with header length 72', nego() + exchange(5, 1, AP_TOKEN, header=72), RC4),
    Probe('no-6', 'NEGO with message length 113, one above the octets left', nego(more=1)),
    Probe('no-7', 'NEGO, AP_REQUEST with sequence 2', nego() + ap_request(2), RC4),
    Probe('no-8', 'NEGO, AP_REQUEST of another conversation', nego() + ap_request(1, bytes(16)), RC4),
    Probe('no-10', 'NEGO with version 1', nego(version=1)),
    Probe('no-13-size', 'NEGO, AP_REQUEST, VERIFY with checksum header length 24', with_verify(size=24), RC4),
    Probe('no-13-scheme', 'NEGO, AP_REQUEST, VERIFY with checksum scheme 2', with_verify(scheme=2), RC4),
]

# The probes that Samba is asked to write: one of each message's kind.
SAMBA_WRITES = ['p3', 'not-critical', 'ap', 'metadata', 'verify', 'alert']

CONVERSATIONS = [
    Conversation('alert', ('A', 'A'), {'CAPTURE_HOPS': '3', 'CAPTURE_EARLY': 'i', 'NEGOEX_NO_OPTIMISTIC_TOKEN': '1'}),
    Conversation('disjoint', ('AB', 'CD'), done=False),
    Conversation('metadata', ('ABC', 'CBA'), {'CAPTURE_META': '5'}),
    Conversation('one', ('A', 'A'), {'CAPTURE_HOPS': '3'}),
    Conversation('p11', ('CB', 'ABC')),
    Conversation('rc4', ('A', 'A'), {'CAPTURE_HOPS': '1', 'CAPTURE_ETYPE': '23'}),
]
