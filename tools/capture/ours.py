"""Asks ours, through ./negoex: the structural reading (`list`) and our two ends (`converse`, whose scripts README.md shows).

An end that has read a NEGO makes its next call, without marks: the acceptor writes its reply, and the initiator chooses with its first later
message.
"""
import re
from collections import defaultdict, namedtuple

from asking import NoAnswer, asked, save
from messages import SCHEMES, alerts, id_text, is_nego, kind, letter, listed, number, split

ROOM = 65535
REPLY_RANDOM = bytes(32)
CHOOSE = 'i choose 0000 '
NO_MORE = CHOOSE + 'exchange -'          # where there is no later message to choose with

# A turn of MIT's at our two ends: what the reader makes of it, and what the writer writes.
AtOurEnds = namedtuple('AtOurEnds', 'reads writes')


def listing(path):
    """The structural reading's answer, with the types that it shows."""
    _, text = asked(['./negoex', 'list', '--raw', path], path + '.ours-list')
    if text.startswith('refused'):
        return refusal(text)
    if not text.startswith('message'):
        raise NoAnswer(f'./negoex list says nothing of {path}')
    types = re.findall(r'^(extension|checksum)(?: \d+)? type=(-?\d+)', text, re.MULTILINE)
    return 'read' + ''.join(f'; {what} type {int(value):,}' for what, value in types)


def acceptor(token, letters, keep):
    """What an acceptor that lists `letters` makes of the token as its first."""
    _, read, reply = played([open_call('a', letters), read_call('a', token), reply_call(REPLY_RANDOM)], keep)
    return outcome(read, reply)


def initiator(first, reply, letters, keep):
    """What an initiator that lists `letters` makes of `reply`, having written MIT's first token, octet 86 apart."""
    calls = [open_call('i', letters, first[24:40])] + [write_call('i', message) for message in split(first)]
    answers = played(calls + [read_call('i', reply), NO_MORE], keep)
    if writes(answers[1:-2], first) != 'the same':
        raise NoAnswer(f"our initiator's first token is another than MIT's: {keep}")
    return outcome(*answers[-2:])


def conversation(turns, lists, keep):
    """What our two ends make of a conversation of MIT's, turn by turn; None for those behind a refused one."""
    calls = [('open', open_call('i', lists[0], turns[0][24:40])), ('open', open_call('a', lists[1]))]
    for place, token in enumerate(turns):
        writer, reader = 'ia'[place % 2], 'ai'[place % 2]
        calls += [(f'write {place}', write_call(writer, message)) for message in split(token)]
        calls.append((f'read {place}', read_call(reader, token)))
    chooses = [k for k, (label, _) in enumerate(calls) if label == 'write 2'][:1]
    for k in chooses:                          # the initiator's first later message is written with the choice
        calls[k] = ('write 2', CHOOSE + calls[k][1].removeprefix('i '))
    if len(turns) == 2:
        calls.append(('write 2', NO_MORE))
    if len(turns) == 1:                        # MIT's acceptor wrote no reply; ours is asked for one
        calls.append(('write 1', reply_call(REPLY_RANDOM)))
    said = defaultdict(list)
    for (label, _), answer in zip(calls, played([call for _, call in calls], keep)):
        said[label].append(answer)
    met = [at_our_ends(place, token, said) for place, token in enumerate(turns)]
    refused = [place for place, one in enumerate(met) if one.reads.startswith('refused')]
    return [one if place <= min(refused, default=place) else None for place, one in enumerate(met)]


def at_our_ends(place, token, said):
    """A turn at our two ends, by what the calls of each label said. Who reads the first turn writes its reply, the first message of
    the second turn; who reads that one chooses."""
    following = {0: said['write 1'], 1: said['write 2']}.get(place, [])
    return AtOurEnds(outcome(*said[f'read {place}'], *following[:1]), writes(said[f'write {place}'], token))


def played(calls, keep):
    """The answers to a script of these calls, one each."""
    save(keep + '.script', ''.join(call + '\n' for call in calls).encode())
    _, text = asked(['./negoex', 'converse', keep + '.script'], keep)
    answers = text.splitlines()[:-1]
    if len(answers) != len(calls) or 'bad line' in answers or 'opened' not in answers:
        raise NoAnswer(f'./negoex converse does not answer each call; {keep} has what it says')
    return answers


def outcome(read, following=''):
    """What an end makes of a token: its refusal, or what the call behind the reading answers."""
    if read.startswith('refused'):
        return refusal(read)
    if following.startswith('refused'):
        return 'read, then ' + refusal(following)
    if following.startswith('wrote'):
        message = written(following)
        return 'lists ' + listed(message) if is_nego(message) else 'chooses ' + letter(re.search(r' choice=(\S+)', following)[1])
    return 'read'


def refusal(line):
    return line.strip().removesuffix(' at=0')


def written(answer):
    return bytes.fromhex(answer.split()[2])


def writes(answers, token):
    """Whether these calls wrote the token, octet 86 apart; or the first refusal."""
    refused = [refusal(one) for one in answers if one.startswith('refused')]
    if refused:
        return refused[0]
    return 'the same' if b''.join(map(written, answers)) == zeroed(token) else 'other octets'


def zeroed(token):
    """The token with octet 86 zero where it begins with a NEGO: a pad in document 01, and a part of an offset in MIT's."""
    return token[:86] + b'\0' + token[87:] if is_nego(token) else token


def open_call(end, letters, conversation_id=None):
    named = [id_text(conversation_id)] if conversation_id else []
    return ' '.join(['open', end, str(ROOM)] + named + [SCHEMES[one] for one in letters])


def read_call(end, octets):
    return f'{end} read {digits(octets)}'


def reply_call(random):
    return f'a reply 0000 {digits(random)}'


def write_call(end, message):
    """The call that writes such a message."""
    which = kind(message)
    if which == 0:
        return f'{end} offer {digits(message[40:72])}'
    if which == 1:
        return reply_call(message[40:72])
    if which in (2, 3):
        return f'{end} metadata {id_text(message[40:56])} {digits(message[64:])}'
    if which in (4, 5):
        return f'{end} exchange {digits(message[64:])}'
    if which == 6:
        return f'{end} verify {number(message, 64):08X} {digits(message[80:])}'
    return ' '.join([f'{end} alert {number(message, 56):08X}'] + [f'{one:08X}:{digits(value)}' for one, value in alerts(message)])


def digits(octets):
    return octets.hex().upper() or '-'
