"""An end of ours in a live conversation: a host of the proved programs, with a mechanism.

What it sends and takes goes through ./negoex: its calls through `converse`, which is called anew for each with the script so far, and
its envelopes through `wrap` and `unwrap`. The mechanism is mech.c, and the checksums are MIT's library's (talking.py). What a host has
to do itself is here: which call it makes, when it asks the mechanism, and what it does with a checksum.
"""
import re
import secrets
from collections import namedtuple

from asking import NoAnswer, asked, save
from envelopes import (KERBEROS, NEGOEX, STATE_ASKS_MIC, STATE_DONE, STATE_GOES_ON, STATE_REJECTED, mechanism_list, unwrap, wrap_first,
                       wrap_later)
from messages import SCHEMES, letter, listed
from ours import digits, open_call, refusal, written
from talking import Mechanism

CHALLENGE, AP_REQUEST, VERIFY, ALERT = 4, 5, 6, 7
OTHER = {'i': 'a', 'a': 'i'}
# MIT's key usages, by the end that signs; the draft has them the other way round.
MIT_USAGES = {'i': 25, 'a': 23}
EXTENSION = ' 00000005:AB'
# An ALERT, as MIT sends it, that says that there is no key yet: a pulse (docs/RULES.md).
NO_KEY = 'alert 00000000 00000001:0800000001000000'

# A VERIFY of the peer: its scheme, its checksum's type and value, and all that came before it.
Heard = namedtuple('Heard', 'scheme kind value before')


class Refused(Exception):
    """This end goes no further; the text says why."""


class Rejected(Refused):
    """This end goes no further, since its peer says that it does not."""


class OurEnd:
    """What both ends have in common. `case` is a row of live_cases.py."""

    def __init__(self, side, live, case, folder, environment):
        self.side, self.live, self.case, self.folder, self.environment = side, live, case, folder, environment
        self.letters = case.lists['ia'.index(side)]
        self.calls, self.transcript, self.turns = [], b'', 0
        self.used = self.would_use = 0                  # how long the transcript is as the programs say, and would be by the last call
        self.mechanisms, self.mechanism = [], None      # all contexts, and the one that goes on
        self.heard = None                               # the peer's last VERIFY
        self.told = None                                # the state in the peer's last envelope
        self.mechanism_list = b''                       # SPNEGO's, which a mechListMIC is over
        self.wants_mic, self.mics = False, set()        # whether there have to be MICs, and the ends whose MICs are there
        self.types = set()                              # the checksums' types
        self.usages = {}                                # by end, the key usages whose checksums are right
        self.signed_for = None                          # the scheme of this end's last VERIFY
        self.heard_mic = b''
        self.outcome, self.notes = 'goes on', []

    # The programs.

    def play(self, call):
        """The answer to one more call behind the script so far, which stays as it is."""
        keep = f'{self.folder}/ours-{len(self.calls):02d}'
        save(keep + '.script', ''.join(one + '\n' for one in self.calls + [call]).encode())
        _, text = asked(['./negoex', 'converse', keep + '.script'], keep)
        *answers, used = text.splitlines() or ['']
        if len(answers) != len(self.calls) + 1 or answers[-1] == 'bad line':
            raise NoAnswer(f'./negoex converse does not answer each call; {keep} has what it says')
        self.would_use = int(re.search(rf' {self.side}=(\d+)', used)[1])
        return answers[-1]

    def make(self, call):
        """The answer to a call that the script keeps. A refused one ends this end."""
        answer = self.play(call)
        if answer.startswith('refused'):
            raise Refused(refusal(answer))
        self.calls.append(call)
        self.used = self.would_use
        return answer

    def write(self, words):
        """The octets that a call writes."""
        octets = written(self.make(f'{self.side} {words}'))
        self.transcript += octets
        return octets

    def read(self, octets, keep):
        """The messages in an envelope, once this end has read its token."""
        envelope = unwrap(octets, keep)
        self.told = envelope.state
        if self.told == STATE_REJECTED:
            raise Rejected('told state 2')
        self.wants_mic = self.wants_mic or (self.told == STATE_ASKS_MIC and self.case.mics)
        if envelope.refused and not envelope.token:
            raise Refused(f'envelope {refusal(envelope.refused)}')
        self.mechanism_list = self.mechanism_list or mechanism_list(envelope.mechanisms)
        self.heard_mic = envelope.mic
        return self.read_token(envelope) if envelope.token else []

    def read_token(self, envelope):
        self.make(f'{self.side} read {digits(envelope.token)}')
        for one in envelope.messages:
            if one.kind == VERIFY:
                self.heard = Heard(one.schemes[0], one.checksum_type, one.octets, self.transcript + envelope.token[:one.at])
        self.transcript += envelope.token
        return envelope.messages

    # The mechanism and its checksums.

    def open_mechanism(self, scheme):
        """A new context. Each is a program of its own, so that those behind the first are told not to fail."""
        keep = f'{self.folder}/mechanism-{len(self.mechanisms)}'
        self.mechanism = Mechanism(self.live, self.side, scheme, keep, self.environment)
        self.environment = {**self.environment, 'CAPTURE_FAIL': ''}
        self.mechanisms.append(self.mechanism)

    def advance(self, token):
        """The mechanism's next token, if it has one, once it has the peer's. A mechanism that fails ends this end."""
        octets = self.mechanism.step(token)
        if self.mechanism.state == 'error':
            raise Refused('its mechanism fails')
        return octets

    def usage(self):
        """The key usage by which this end signs."""
        return MIT_USAGES[OTHER[self.side] if self.case.usages == 'draft' else self.side]

    def verify_words(self):
        """The words of a VERIFY over the transcript; none where the mechanism has no key yet."""
        if self.used != len(self.transcript):
            raise NoAnswer(f'{self.folder}: the transcript has {len(self.transcript)} octets, and the programs say {self.used}')
        made = self.mechanism.sign(self.usage(), self.transcript)
        if made is None:
            return ''
        kind, value = made
        if self.case.wrong == 'ours':
            value = bytes([value[0] ^ 1]) + value[1:]
        return f'verify {kind & 0xFFFFFFFF:08X} {digits(value)}'

    def sign(self, choosing=''):
        """Writes this end's VERIFY, where it has none for the scheme yet, and has the key."""
        waits = self.signed_for == self.mechanism.letter or (self.case.waits and self.mechanism.state != 'done')
        words = '' if waits else self.verify_words()
        if not words:
            return b''
        octets = self.write(choosing + words)
        self.signed_for = self.mechanism.letter
        self.types.add(words.split()[1])
        self.usages[self.side] = [self.usage()]
        return octets

    def sign_again(self, messages):
        """What the programs say to a second VERIFY, where the peer's ALERT asks for one. None is sent."""
        if ALERT in [one.kind for one in messages] and self.signed_for == self.mechanism.letter:
            self.notes.append('a second VERIFY is ' + refusal(self.play(f'{self.side} {self.verify_words()}')))

    def alert(self):
        """Writes an ALERT, where the case has it and the peer's VERIFY can't be checked yet."""
        unchecked = self.heard is not None and self.heard.scheme == self.mechanism.letter and OTHER[self.side] not in self.usages
        return self.write(NO_KEY) if self.case.alerts and unchecked else b''

    def check(self):
        """Checks the peer's VERIFY for the scheme, once the mechanism has the key for it. A wrong one ends this end."""
        peer = OTHER[self.side]
        if self.heard is None or self.heard.scheme != self.mechanism.letter or peer in self.usages:
            return
        right = self.mechanism.usages(self.heard.kind, self.heard.value, self.heard.before)
        if right is not None and MIT_USAGES[peer] not in right:
            raise Refused('refused: checksum')
        if right is not None:
            self.types.add(f'{self.heard.kind & 0xFFFFFFFF:08X}')
            self.usages[peer] = right

    def is_complete(self):
        """Its mechanism is done, its VERIFY is written, and the peer's was right."""
        mine = self.mechanism
        return (mine is not None and mine.state == 'done' and self.signed_for == mine.letter and OTHER[self.side] in self.usages)

    def mic(self):
        """Its mechListMIC, where one is wanted and due. The peer's is checked first; a wrong one ends this end."""
        if self.heard_mic and not (self.is_complete() and self.mechanism.is_mic(self.heard_mic, self.mechanism_list)):
            raise Refused('refused: mechListMIC')
        if self.heard_mic:
            self.mics.add(OTHER[self.side])
        if not self.wants_mic or not self.is_complete() or self.side in self.mics or self.case.wrong == 'no mic':
            return b''
        self.mics.add(self.side)
        return self.mechanism.mic(self.mechanism_list + (b'!' if self.case.wrong == 'mic' else b''))

    def is_done(self):
        """Nothing is left to be read or written but what SPNEGO's states say."""
        return self.is_complete() and (not self.wants_mic or self.mics == {'i', 'a'})

    # Turns.

    def marks(self):
        """This end's marks: bit k is for place k of its list."""
        marked = self.case.marks.get(self.side, '')
        return f'{sum(1 << k for k, one in enumerate(self.letters) if one in marked):04X}'

    def extension(self):
        return EXTENSION if self.case.extension else ''

    def metadata(self, schemes):
        octets = self.case.metadata
        return b''.join(self.write(f'metadata {SCHEMES[one]} {digits(one.encode() * octets)}') for one in schemes if octets)

    def take(self, octets):
        """The envelope that this end sends when it has this one; empty where it sends none."""
        keep = f'{self.folder}/{self.turns:02d}-'
        self.turns += 1
        try:
            token = self.answer(self.read(octets, keep + 'unwrap') if octets else [])
            mic = self.mic()
        except Refused as reason:
            self.outcome = f'done, then {reason}' if self.outcome == 'done' else str(reason)
            return b'' if isinstance(reason, Rejected) else wrap_later(STATE_REJECTED, b'', keep + 'wrap')
        self.outcome = 'done' if self.is_done() else 'goes on'
        return self.enclosed(token, mic, keep + 'wrap')

    def state(self):
        """What its envelope says of it."""
        return STATE_DONE if self.outcome == 'done' else STATE_GOES_ON

    def goes_on(self):
        """Whether it takes another envelope: done, it still learns that its peer is not."""
        return self.outcome in ('goes on', 'done')

    def scheme(self):
        return self.mechanism.letter

    def close(self):
        for one in self.mechanisms:
            one.close()


class OurInitiator(OurEnd):
    has_chosen = False

    def answer(self, messages):
        """The octets of its next token."""
        if not self.calls:
            return b'' if self.case.second and self.turns == 1 else self.first_token()
        choosing = '' if self.has_chosen else f'choose {self.marks()} '
        self.has_chosen = True
        challenges = [one for one in messages if one.kind == CHALLENGE]
        scheme = self.choice(choosing) if choosing else self.mechanism.letter
        token = self.mechanism_token(scheme, challenges, choosing)
        self.check()
        self.sign_again(messages)
        octets = self.write(f'{choosing}exchange {digits(token)}') if token else b''
        octets += self.sign('' if octets else choosing)
        return octets + self.alert()

    def first_token(self):
        self.make(open_call('i', self.letters, secrets.token_bytes(16)))
        octets = self.write(f'offer {secrets.token_hex(32)}{self.extension()}') + self.metadata(self.letters)
        if self.case.optimistic:
            self.open_mechanism(self.letters[0])
            octets += self.write(f'exchange {digits(self.advance(b""))}') + self.sign()
        return octets

    def choice(self, choosing):
        """The scheme that the choosing call names. Its content depends on the scheme, so the call is tried with none first."""
        answer = self.play(f'i {choosing}exchange -')
        if answer.startswith('refused'):
            raise Refused(refusal(answer))
        return letter(re.search(r' choice=(\S+)', answer)[1])

    def mechanism_token(self, scheme, challenges, choosing):
        """The mechanism's next token, if it has one. A context that the reply does not go on with is given up."""
        if challenges and self.mechanism is not None and self.mechanism.letter == scheme:
            return self.advance(challenges[0].octets)
        if choosing:
            self.open_mechanism(scheme)
            return self.advance(b'')
        return b''

    def enclosed(self, token, mic, keep):
        if self.turns == 1:
            mechanisms = [KERBEROS, NEGOEX] if self.case.second else [NEGOEX]
            self.mechanism_list = mechanism_list(mechanisms)
            return wrap_first(mechanisms, token, keep)
        return wrap_later(self.state(), token, keep, mic=mic) if token or mic else b''

    def is_done(self):
        """As its peer says, unless MICs have said it to both."""
        return super().is_done() and (self.wants_mic or self.told == STATE_DONE)


class OurAcceptor(OurEnd):

    def answer(self, messages):
        """The octets of its next token."""
        requests = [one for one in messages if one.kind == AP_REQUEST]
        if self.turns == 1:
            return self.reply(requests)
        if not messages:
            return b''
        scheme = messages[0].schemes[0]
        if self.mechanism is None or self.mechanism.letter != scheme or not self.mechanism.answered:
            self.open_mechanism(scheme)
        token = self.advance(requests[0].octets) if requests else b''
        self.check()
        self.sign_again(messages)
        return self.exchange(token) + self.sign() + self.alert()

    def read(self, octets, keep):
        if not self.calls:
            self.make(open_call('a', self.letters))
            self.wants_mic = self.case.asks
        return super().read(octets, keep)

    def reply(self, requests):
        answer = self.make(f'a reply {self.marks()} {secrets.token_hex(32)}{self.extension()}')
        octets, scheme = written(answer), letter(re.search(r' choice=(\S+)', answer)[1])
        self.transcript += octets
        octets += self.metadata(listed(octets).split(', '))
        if not requests or requests[0].schemes[0] != scheme:
            return octets
        self.open_mechanism(scheme)
        token = self.mechanism.step(requests[0].octets)
        if self.mechanism.state == 'error':                  # the initiator begins again
            return octets
        self.check()
        return octets + self.challenge(token)

    def challenge(self, token):
        """The CHALLENGE of a reply and the VERIFY behind it. Where the mechanism has no token left, there is none to stand behind."""
        if token or self.case.empty:
            return self.exchange(token, True) + self.sign()
        self.notes.append('a VERIFY in the reply is ' + refusal(self.play('a ' + self.verify_words())))
        return b''

    def exchange(self, token, empty=False):
        self.mechanism.answered = True
        return self.write(f'exchange {digits(token)}') if token or empty else b''

    def enclosed(self, token, mic, keep):
        if self.turns == 1 and self.wants_mic:
            return wrap_later(STATE_ASKS_MIC, token, keep, names=True)
        due = token or mic or (self.outcome == 'done' and self.told != STATE_DONE)
        return wrap_later(self.state(), token, keep, self.turns == 1, mic) if due else b''
