#!/usr/bin/env python3
"""captures.py ENVELOPES TOKENS FOLDER

Writes captures into FOLDER: http.pcap, ldap.pcap and smb2.pcap carry the SPNEGO envelopes in the folder ENVELOPES (NAME-NN-i.spnego and NAME-NN-a.spnego, a
conversation a NAME, from the initiator or the acceptor), each conversation over one connection; late.pcap has LDAP without each conversation's first message; raw.pcap has each token in TOKENS as a packet of its own, handed
to the dissector `negoex_proved`, and both.pcap handed to Wireshark's own, `negoex`. Beside each, NAME.order has the files in the order of their packets.
"""
import base64, os, re, struct, sys

SEGMENT = 1400


def checksum(data):
    if len(data) % 2:
        data += b'\0'
    total = sum(struct.unpack('>%dH' % (len(data) // 2), data))
    while total >> 16:
        total = (total & 0xFFFF) + (total >> 16)
    return ~total & 0xFFFF


class Pcap:
    def __init__(self, path, link):
        self.file = open(path, 'wb')
        self.file.write(struct.pack('<IHHiIII', 0xA1B2C3D4, 2, 4, 0, 0, 262144, link))
        self.time = 0

    def packet(self, data):
        self.time += 1
        self.file.write(struct.pack('<IIII', 1700000000 + self.time // 1000, self.time % 1000 * 1000, len(data), len(data)) + data)


class Connection:
    """One TCP connection: its ends are 0, the client, and 1, the server."""
    def __init__(self, pcap, client_port, server_port):
        self.pcap, self.ports, self.sequence = pcap, (client_port, server_port), [1000, 2000]
        for end, flags in ((0, 0x02), (1, 0x12), (0, 0x10)):
            self.segment(end, flags, b'')
            self.sequence[end] += flags & 2 and 1

    def segment(self, end, flags, data):
        addresses = [b'\x0a\0\0\x01', b'\x0a\0\0\x02']
        source, target = addresses[end], addresses[1 - end]
        tcp = struct.pack('>HHIIBBHHH', self.ports[end], self.ports[1 - end], self.sequence[end], self.sequence[1 - end] if flags & 0x10 else 0, 0x50, flags, 65535, 0, 0)
        whole = checksum(source + target + struct.pack('>BBH', 0, 6, len(tcp) + len(data)) + tcp + data)
        tcp = tcp[:16] + struct.pack('>H', whole) + tcp[18:]
        ip = struct.pack('>BBHHHBBH', 0x45, 0, 20 + len(tcp) + len(data), 1, 0x4000, 64, 6, 0) + source + target
        ip = ip[:10] + struct.pack('>H', checksum(ip)) + ip[12:]
        self.pcap.packet(b'\2\0\0\0\0\x02\2\0\0\0\0\x01\x08\0' + ip + tcp + data)

    def send(self, end, data):
        for at in range(0, len(data), SEGMENT):
            part = data[at:at + SEGMENT]
            self.segment(end, 0x18, part)
            self.sequence[end] += len(part)


def http(end, envelope, k):
    text = base64.b64encode(envelope).decode()
    if end == 0:
        return ('GET / HTTP/1.1\r\nHost: example.org\r\nAuthorization: Negotiate %s\r\n\r\n' % text).encode()
    return ('HTTP/1.1 401 Unauthorized\r\nWWW-Authenticate: Negotiate %s\r\nContent-Length: 0\r\n\r\n' % text).encode()


def ber(tag, data):
    n = len(data)
    size = bytes([n]) if n < 128 else (lambda b: bytes([0x80 + len(b)]) + b)(n.to_bytes((n.bit_length() + 7) // 8, 'big'))
    return bytes([tag]) + size + data


def ldap(end, envelope, k):
    if end == 0:
        call = ber(0x60, ber(2, b'\3') + ber(4, b'') + ber(0xA3, ber(4, b'GSS-SPNEGO') + ber(4, envelope)))
    else:
        call = ber(0x61, ber(10, b'\x0e') + ber(4, b'') + ber(4, b'') + ber(0x87, envelope))
    return ber(0x30, ber(2, bytes([1 + k // 2])) + call)


def smb2(end, envelope, k):
    status = 0xC0000016 if end else 0
    head = b'\xfeSMB' + struct.pack('<HHIHHIIQIIQ16x', 64, 0, status, 1, 1, end, 0, k // 2, 0, 0, 0x1122)
    if end == 0:
        body = struct.pack('<HBBIIHHQ', 25, 0, 1, 0, 0, 88, len(envelope), 0) + envelope
    else:
        body = struct.pack('<HHHH', 9, 0, 72, len(envelope)) + envelope
    return struct.pack('>I', len(head) + len(body)) + head + body


def conversations(folder):
    """By name, the files of a conversation in order, with the end that sent each."""
    found = {}
    for name in sorted(os.listdir(folder)):
        m = re.fullmatch(r'(.+)-(\d\d)-([ia])\.spnego', name)
        if m:
            found.setdefault(m.group(1), []).append((0 if m.group(3) == 'i' else 1, name))
    return found


def main(envelopes, tokens, folder):
    for title, protocol, port, begin in (('http', http, 80, 0), ('ldap', ldap, 389, 0), ('smb2', smb2, 445, 0), ('late', ldap, 389, 1)):
        pcap, order = Pcap(os.path.join(folder, title + '.pcap'), 1), []
        for number, (_, files) in enumerate(sorted(conversations(envelopes).items())):
            connection = Connection(pcap, 40000 + number, port)
            for k, (end, name) in list(enumerate(files))[begin:]:
                envelope = open(os.path.join(envelopes, name), 'rb').read()
                if protocol is smb2 and len(envelope) > 65535:
                    continue  # its length has two octets there
                connection.send(end, protocol(end, envelope, k))
                order.append(name)
        open(os.path.join(folder, title + '.order'), 'w').write('\n'.join(order) + '\n')
    for name, dissector in (('raw', b'negoex_proved\0\0\0'), ('both', b'negoex\0\0')):
        pcap, files = Pcap(os.path.join(folder, name + '.pcap'), 252), sorted(os.listdir(tokens))
        for file in files:
            token = open(os.path.join(tokens, file), 'rb').read()
            pcap.packet(struct.pack('>HH', 12, len(dissector)) + dissector + struct.pack('>HH', 0, 0) + token)
        open(os.path.join(folder, name + '.order'), 'w').write('\n'.join(files) + '\n')


if __name__ == '__main__':
    if len(sys.argv) != 4:
        sys.exit(__doc__)
    main(*sys.argv[1:])
