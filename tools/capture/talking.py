"""Programs that live as long as a conversation: an end of MIT's, and a mechanism for an end of ours (live.c)."""
import contextlib
import os
import subprocess
import threading

from asking import NoAnswer
from ours import digits
from peers import mit_refusal

LONGEST = 60                              # seconds for one conversation


class Talk:
    """A program that answers each line of its standard input. Both sides are kept in the file `keep`."""

    def __init__(self, command, keep, environment):
        if not os.path.exists(command[0]):
            raise NoAnswer(f'there is no program {command[0]}')
        self.keep = open(keep, 'w', encoding='utf-8')
        self.program = subprocess.Popen(command, stdin=subprocess.PIPE, stdout=subprocess.PIPE, stderr=self.keep, text=True,
                                        env={**os.environ, **environment})
        self.timer = threading.Timer(LONGEST, self.program.kill)
        self.timer.daemon = True
        self.timer.start()

    def ask(self, line, answers=1):
        """The lines of its answer to a line."""
        try:
            self.program.stdin.write(line + '\n')
            self.program.stdin.flush()
        except BrokenPipeError:
            raise NoAnswer(f'{self.program.args[0]} has ended; {self.keep.name} has what was said') from None
        said = [self.program.stdout.readline() for _ in range(answers)]
        self.keep.write(line + '\n' + ''.join(said))
        if '' in said:
            raise NoAnswer(f'{self.program.args[0]} does not answer; {self.keep.name} has what was said')
        return [one.rstrip('\n') for one in said]

    def close(self):
        self.timer.cancel()
        with contextlib.suppress(BrokenPipeError):
            self.program.stdin.close()
        self.program.stdout.close()
        self.program.wait()
        self.keep.close()


class MitEnd:
    """An end of MIT's, `i` or `a`, that lists these letters. Its outcome is `goes on`, `done` or its refusal."""

    def __init__(self, live, side, letters, keep, environment):
        self.talk = Talk([live, 'end', side, letters], keep, environment)
        self.side, self.outcome, self.named = side, 'goes on', '-'

    def take(self, envelope):
        """The envelope that it sends when it has this one (an initiator has none at first); empty where it sends none."""
        line, sent = self.talk.ask(digits(envelope), 2)
        octets, self.named = sent.split()
        self.outcome = mit_refusal(line.split()) or line.split()[3].replace('goes-on', 'goes on')
        return octets_in(octets)

    def goes_on(self):
        return self.outcome == 'goes on'

    def scheme(self):
        """The letter of the scheme that it says it has taken; `-` for none."""
        return self.named

    def close(self):
        self.talk.close()


class Mechanism:
    """A context of the mechanism of a letter at an end of ours."""

    def __init__(self, live, side, letter, keep, environment):
        self.talk = Talk([live, 'mechanism', side, letter], keep, environment)
        self.letter = letter
        self.state = 'goes-on'
        self.answered = False                 # the peer's mechanism goes on with this context

    def step(self, token):
        """Its next token, once it has the peer's (none at first at an initiator)."""
        self.state, octets = self.talk.ask('step ' + digits(token))[0].split()
        return octets_in(octets)

    def sign(self, usage, octets):
        """The type of a checksum over these octets, and its value; None where the mechanism has no key yet."""
        said = self.talk.ask(f'sign {usage} {digits(octets)}')[0]
        return None if said == 'no key' else (int(said.split()[0]), octets_in(said.split()[1]))

    def usages(self, kind, value, octets):
        """The draft's key usages by which this checksum over these octets is right; None where the mechanism has no key yet."""
        said = {usage: self.talk.ask(f'check {usage} {kind} {digits(value)} {digits(octets)}')[0] for usage in (23, 25)}
        return None if 'no key' in said.values() else [usage for usage, one in said.items() if one == 'right']

    def mic(self, octets):
        return octets_in(self.talk.ask('mic ' + digits(octets))[0])

    def is_mic(self, mic, octets):
        """Whether this is the peer's MIC of these octets."""
        return self.talk.ask(f'check-mic {digits(mic)} {digits(octets)}')[0] == 'right'

    def close(self):
        self.talk.close()


def octets_in(text):
    return b'' if text == '-' else bytes.fromhex(text)
