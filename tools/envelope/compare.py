#!/usr/bin/env python3
"""compare.py [FILE..]: what `unwrap` says of envelopes, beside pyasn1's DER decoder.

Without FILE the envelopes of crates/envelopes/data. An accepted envelope has to decode, with RFC 4178's schema, to the same fields, and pyasn1 has to encode
these to the same octets. A refused one has to be refused by pyasn1 too, or to be encoded otherwise, but for what the schema does not say: 1 and 23 are limits of
ours, and pyasn1 is not told which contents the wrapper's identifier and a state have to have. It needs python3-pyasn1 and crates/unwrap/out/unwrap, and is no test of the gate.
"""
import os
import subprocess
import sys

from pyasn1.codec.der import decoder, encoder
from pyasn1.error import PyAsn1Error
from pyasn1.type import namedtype, tag, univ

ROOT = os.path.dirname(os.path.dirname(os.path.dirname(os.path.abspath(__file__))))


def octets(number):
    """Contents as they are, under a universal tag."""
    return univ.OctetString().subtype(implicitTag=tag.Tag(tag.tagClassUniversal, tag.tagFormatSimple, number))


def explicit(kind, number):
    return kind.subtype(explicitTag=tag.Tag(tag.tagClassContext, tag.tagFormatConstructed, number))


class Mechanisms(univ.SequenceOf):
    componentType = octets(6)


class NegTokenInit(univ.Sequence):
    componentType = namedtype.NamedTypes(
        namedtype.NamedType('mechanisms', explicit(Mechanisms(), 0)),
        namedtype.OptionalNamedType('flags', explicit(octets(3), 1)),
        namedtype.OptionalNamedType('token', explicit(octets(4), 2)),
        namedtype.OptionalNamedType('checksum', explicit(octets(4), 3)),
    )


class NegTokenResp(univ.Sequence):
    componentType = namedtype.NamedTypes(
        namedtype.OptionalNamedType('state', explicit(octets(10), 0)),
        namedtype.OptionalNamedType('mechanism', explicit(octets(6), 1)),
        namedtype.OptionalNamedType('token', explicit(octets(4), 2)),
        namedtype.OptionalNamedType('checksum', explicit(octets(4), 3)),
    )


class Wrapper(univ.Sequence):
    tagSet = univ.Sequence.tagSet.tagImplicitly(tag.Tag(tag.tagClassApplication, tag.tagFormatConstructed, 0))
    componentType = namedtype.NamedTypes(
        namedtype.NamedType('identifier', octets(6)),
        namedtype.NamedType('init', explicit(NegTokenInit(), 0)),
    )


def numbers(data, value):
    """Which refusals of ours the schema does not say: limits, and contents that have to be some."""
    found = set()
    if len(data) > 65535:
        found.add('1')
    if data[:1] == b'\x60':
        count = len(value['init']['mechanisms'])
        if count > 16:
            found.add('23')
        if count == 0 or bytes(value['identifier']) != bytes.fromhex('2B0601050502'):
            found.add('20')
    elif value['state'].isValue and bytes(value['state']) not in (b'\0', b'\1', b'\2', b'\3'):
        found.add('20')
    return found


def shown(v):
    return bytes(v).hex().upper() or '-'


def theirs(data):
    """The lines without places and lengths, or why there are none; and which refusals of ours they don't tell."""
    spec = Wrapper() if data[:1] == b'\x60' else explicit(NegTokenResp(), 1)
    try:
        value, rest = decoder.decode(data, asn1Spec=spec)
    except (PyAsn1Error, ValueError, IndexError) as error:
        return 'not decoded: ' + type(error).__name__, set()
    if rest:
        return 'octets left over', set()
    if encoder.encode(value) != data:
        return 'encoded otherwise', set()
    lines, name, untold = [], 'resp', numbers(data, value)
    if data[:1] == b'\x60':
        name, value = 'init', value['init']
        lines += ['mechanism %d %s' % (k, shown(m)) for k, m in enumerate(value['mechanisms'])]
    lines.insert(0, 'envelope ' + name)
    for field in value.componentType.namedTypes:
        if field.isOptional and value[field.name].isValue:
            v = value[field.name]
            if field.name == 'state':
                lines.append('state %d' % int.from_bytes(bytes(v), 'big'))
            elif field.name == 'mechanism':
                lines.append('mechanism 0 ' + shown(v))
            elif field.name == 'token':
                lines.append('token length=%d %s' % (len(bytes(v)), shown(v)))
            else:
                lines.append('%s %s' % (field.name, shown(v)))
    return lines, untold


def ours(path, data):
    out = subprocess.run([ROOT + '/crates/unwrap/out/unwrap'], input=path.encode() + b'\n', stdout=subprocess.PIPE, check=True).stdout.decode()
    lines = []
    for line in out.splitlines():
        word = line.split(' ')
        if word[0] == 'refused' and not lines:
            return line
        if word[0] == 'envelope':
            lines.append(' '.join(word[:2]))
        elif word[0] == 'mechanism':
            lines.append(' '.join(word[:3]))
        elif word[0] in ('flags', 'state', 'checksum'):
            lines.append(line)
        elif word[0] == 'token':
            at, length = int(word[1][3:]), int(word[2][7:])
            lines.append('token length=%d %s' % (length, shown(data[at:at + length])))
        elif word[0] in ('message', 'refused'):
            break
    return lines


def main():
    folder = ROOT + '/crates/envelopes/data'
    paths = sys.argv[1:] or [os.path.join(folder, name) for name in sorted(os.listdir(folder))]
    accepted = refused = wrong = 0
    for path in paths:
        path = os.path.abspath(path)
        with open(path, 'rb') as file:
            data = file.read()
        us, (them, untold) = ours(path, data), theirs(data)
        if isinstance(us, list):
            accepted += 1
            bad = us != them or untold
        else:
            refused += 1
            bad = isinstance(them, list) and us.split(' ')[1] not in untold
            print('%-60s %-18s %s' % (os.path.basename(path), us, 'decoded' if isinstance(them, list) else them))
        if bad:
            wrong += 1
            print('DIFFERENT', path, us, them)
    print('%d accepted, %d refused, %d different' % (accepted, refused, wrong))
    return 1 if wrong else 0


if __name__ == '__main__':
    sys.exit(main())
