"""Conversations of our ends with MIT's, live, and the table of them in docs/PEERS.md.

    live.py WORK PAGE      WORK is the folder that `run` filled; PAGE is the page, whose part `live` is written anew

What was said stays in WORK/held, in a folder for each conversation.
"""
import itertools
import os
import shutil
import sys
from collections import namedtuple

from asking import NoAnswer
from envelopes import STATE_ASKS_MIC, unwrap
from live_cases import CASES
from messages import is_nego, kind_word, listed, scheme, split
from our_end import VERIFY, OurAcceptor, OurInitiator
from page import table, write_page
from talking import MitEnd

MOST_TURNS = 30
HEADS = ['conversation', 'initiator', 'turns', 'scheme', 'our end', "MIT's end", 'checksum type; key usages', 'MIT with itself']

# How a conversation went: its turns in words, and its two ends as they are behind it, the initiator first.
Held = namedtuple('Held', 'turns ends')


def environment(case, side):
    """What mech.c and MIT's library go by at an end."""
    made = {'CAPTURE_HOPS': str(case.hops), 'CAPTURE_ETYPE': str(case.etype), 'CAPTURE_META': str(case.metadata),
            'CAPTURE_EARLY': case.early, 'CAPTURE_MARK': case.marks.get(side, ''), 'CAPTURE_FAIL': case.fails.get(side, ''),
            'CAPTURE_MIC': str(int(case.mics))}
    return made if case.optimistic else {**made, 'NEGOEX_NO_OPTIMISTIC_TOKEN': '1'}


def damaged(octets, envelope):
    """An envelope with a bit of its VERIFY's checksum changed, if it has one: its last octet is the checksum's."""
    if VERIFY in [one.kind for one in envelope.messages]:
        return octets[:-1] + bytes([octets[-1] ^ 1])
    return octets


def open_end(case, side, ours, work, folder):
    if side not in ours:
        return MitEnd(work + '/live', side, case.lists['ia'.index(side)], f'{folder}/mit-{side}', environment(case, side))
    return (OurInitiator if side == 'i' else OurAcceptor)(side, work + '/live', case, folder, environment(case, side))


def hold(case, ours, work):
    """Holds the conversation; `ours` is the end that is ours, `i` or `a`, or none."""
    folder = f'{work}/held/{case.name}-{ours or "mit"}'
    os.makedirs(folder)
    ends = [open_end(case, side, ours, work, folder) for side in 'ia']
    try:
        return Held(list(turns_of(case, ends, folder)), ends)
    finally:
        for end in ends:
            end.close()


def turns_of(case, ends, folder):
    """The words of each turn, until an end sends nothing or has no more to take."""
    octets = b''
    for turn in range(MOST_TURNS):
        end, side = ends[turn % 2], 'ia'[turn % 2]
        octets = end.take(octets) if end.goes_on() else b''
        if not octets:
            return
        envelope = unwrap(octets, f'{folder}/turn-{turn:02d}-{side}')
        yield f'{side}: {turn_words(envelope)}'
        if isinstance(end, MitEnd) and case.wrong == 'mit':
            octets = damaged(octets, envelope)
    raise NoAnswer(f'no end after {MOST_TURNS} turns; {folder} has them')


def turn_words(envelope):
    """An envelope's messages, those of a kind together, with the schemes that they name; its state where it has none, or asks for a MIC."""
    words = []
    for kind, messages in itertools.groupby(split(envelope.token), kind_word):
        words.append(f'{kind} ({", ".join(listed(one) if is_nego(one) else scheme(one) for one in messages)})')
    if not envelope.token or envelope.state == STATE_ASKS_MIC:
        words.append('no token' if envelope.state is None else f'state {envelope.state}')
    return ', '.join(words + ['mechListMIC'] * bool(envelope.mic))


def taken(held):
    """The scheme on which both ends agree, each being done; none otherwise."""
    schemes = {end.scheme() for end in held.ends if end.outcome == 'done'}
    return schemes.pop() if len(schemes) == 1 and all(end.outcome == 'done' for end in held.ends) else ''


def usage_words(end):
    kinds = sorted(int(one, 16) - (1 << 32 if one >= '8' else 0) for one in end.types)
    usages = ', '.join(f'{side} {" or ".join(map(str, end.usages[side]))}' for side in 'ia' if side in end.usages)
    return f'{", ".join(map(str, kinds))}; {usages}' if usages else 'none'


def cells(held, ours):
    """What a conversation's row says of it, from its turns on to its key usages."""
    mine, mit = held.ends if ours == 'i' else reversed(held.ends)
    return ['; '.join(held.turns), taken(held) or 'none', '; '.join([mine.outcome] + mine.notes), mit.outcome, usage_words(mine)]


def held_by(case, ours, work):
    """The conversation with our end being `ours`; it has to come to the end that the case says."""
    held = hold(case, ours, work)
    if taken(held) != (case.scheme() if ours in case.good else ''):
        raise NoAnswer(f'the live conversation {case.name}-{ours} came to another end; {work}/held has it')
    return held


def mit_words(case, work):
    """The scheme that two ends of MIT's take, or their refusals."""
    if case.is_ours():
        return 'not asked'
    held = hold(case, '', work)
    return taken(held) or '; '.join(f'{end.side} {end.outcome}' for end in held.ends)


def rows(case, work):
    """The rows of a conversation: one for each of our ends, or one for both where they say the same."""
    said = {ours: cells(held_by(case, ours, work), ours) for ours in case.sides}
    words, mit = f'{case.words}; {", ".join(case.lists[0])} against {", ".join(case.lists[1])}', mit_words(case, work)
    if len(said) == 2 and said['i'] == said['a']:
        return [[words, 'either'] + said['i'] + [mit]]
    return [[words, 'ours' if ours == 'i' else "MIT's"] + said[ours] + [mit] for ours in said]


def counted(lines):
    """How many conversations these rows are, and how many of them came to a good end."""
    held = [(2 if initiator == 'either' else 1, scheme_taken != 'none') for _, initiator, _, scheme_taken, *_ in lines]
    good = sum(number for number, well in held if well)
    return f'{sum(number for number, _ in held)} conversations; in {good} both ends are done, with the same scheme.'


def measured(work):
    """The part `live` of the page, as lines."""
    shutil.rmtree(work + '/held', ignore_errors=True)
    lines = [row for case in CASES for row in rows(case, work)]
    return {'live': table(HEADS, lines) + ['', counted(lines)]}


def main():
    if len(sys.argv) != 3:
        sys.exit('usage: live.py WORK PAGE')
    write_page(sys.argv[2], lambda: measured(sys.argv[1]))


if __name__ == '__main__':
    main()
