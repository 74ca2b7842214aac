"""The live conversations. Each is held with our initiator and MIT's acceptor, and with MIT's initiator and our acceptor."""
from dataclasses import dataclass, field


@dataclass(frozen=True)
class Case:
    """One conversation."""
    name: str
    words: str                       # what it is about
    lists: tuple                     # the initiator's and the acceptor's, as letters
    # The mechanism at both ends: CAPTURE_HOPS, CAPTURE_ETYPE, CAPTURE_EARLY and CAPTURE_MIC of mech.c.
    hops: int = 2
    etype: int = 17
    early: str = ''
    mics: bool = False
    metadata: int = 0                # how many octets of it each end sends for a scheme
    optimistic: bool = True          # the first token has an AP_REQUEST
    # Letters by end: those that it marks (ours by the marks of its call, MIT's by a mechanism that fails on the peer's metadata), and those
    # whose first context fails.
    marks: dict = field(default_factory=dict)
    fails: dict = field(default_factory=dict)
    # What our end does by itself.
    usages: str = 'mit'              # whose key usages it signs by: `mit` or `draft`
    extension: bool = False          # its NEGO has an extension, which is not critical
    waits: bool = False              # it waits with its VERIFY until its mechanism is done
    alerts: bool = False             # it answers a VERIFY that it can't check yet with an ALERT
    empty: bool = False              # as acceptor it sends a CHALLENGE in its reply even where its mechanism has no token left
    second: bool = False             # as initiator it names another mechanism before NEGOEX in its NegTokenInit
    asks: bool = False               # as acceptor it asks for a mechListMIC
    wrong: str = ''                  # `ours`: a bit of its checksum is changed; `mic`: its MIC is that of other octets; `no mic`: it sends none;
                                     # `mit`: a bit of MIT's checksum is changed before it gets it
    sides: str = 'ia'                # those of our ends that hold it
    good: str = 'ia'                 # those that come to a good end

    def is_ours(self):
        """Whether it is about something that only our end does, or that is done to an envelope."""
        return bool(self.usages != 'mit' or self.extension or self.waits or self.alerts or self.empty or self.second or self.asks
                    or self.wrong)

    def scheme(self):
        """The choice by the rule: the first of the acceptor's order that both list and neither marks."""
        marked = ''.join(self.marks.values()) + self.fails.get('i', '')
        return next((one for one in self.lists[1] if one in self.lists[0] and one not in marked), '')


CASES = [
    Case('one', 'one scheme, two tokens of the mechanism', ('A', 'A')),
    Case('not-optimistic', 'no AP_REQUEST in the first token', ('A', 'A'), optimistic=False),
    Case('rounds-3', 'three tokens of the mechanism', ('A', 'A'), hops=3),
    Case('rounds-4', 'four tokens', ('A', 'A'), hops=4),
    Case('rounds-9', 'nine tokens, and no AP_REQUEST in the first token', ('AB', 'BA'), hops=9, optimistic=False),
    Case('etype-18', 'a key of encryption type 18', ('A', 'A'), etype=18),
    Case('etype-23', 'a key of encryption type 23', ('A', 'A'), etype=23),
    Case('metadata', 'metadata of both, opposite orders', ('ABC', 'CBA'), metadata=5),
    Case('long', 'metadata of 9,000 octets a scheme, the same order', ('ABC', 'ABC'), metadata=9000),
    Case('six', 'all six schemes, opposite orders, metadata of one octet', ('ABCDEF', 'FEDCBA'), metadata=1),
    Case('lists', 'schemes that one end alone has', ('DAB', 'CBEA')),
    Case('p11', 'P11', ('CB', 'ABC')),
    Case('marks-a', 'P12: the acceptor marks B', ('CB', 'ABC'), metadata=5, marks={'a': 'B'}),
    Case('marks-i', 'P12: the initiator marks B', ('CB', 'ABC'), metadata=5, marks={'i': 'B'}),
    Case('marks-both', 'the initiator marks A and the acceptor B, no AP_REQUEST in the first token', ('ABC', 'ABC'), metadata=5,
         optimistic=False, marks={'i': 'A', 'a': 'B'}),
    Case('marks-begun', 'the initiator marks A, the scheme of its AP_REQUEST', ('ABC', 'ABC'), metadata=5, marks={'i': 'A'}, good='i'),
    Case('marks-a-all', 'P13: the acceptor marks B and C', ('CB', 'ABC'), metadata=5, marks={'a': 'BC'}, good=''),
    Case('marks-i-all', 'the initiator marks B and C', ('CB', 'ABC'), metadata=5, marks={'i': 'BC'}, good=''),
    Case('disjoint', 'no common scheme', ('AB', 'CD'), good=''),
    Case('fails-a', "the acceptor's mechanism fails on the first token, and then doesn't", ('A', 'A'), fails={'a': 'A'}),
    Case('fails-i', "the mechanism of A fails at MIT's initiator", ('AB', 'AB'), fails={'i': 'A'}, sides='a'),
    Case('early-i', 'the initiator has its key early', ('A', 'A'), early='i'),
    Case('early-both', 'both have their keys early, four tokens', ('A', 'A'), hops=4, early='ia'),
    Case('early-other', 'the initiator has its key early, and its first scheme is not chosen', ('AB', 'BA'), early='i'),
    Case('early-a', 'the acceptor alone has its key early, four tokens', ('A', 'A'), hops=4, early='a', good='i'),
    Case('early-i-3', 'the initiator alone has its key early, three tokens', ('A', 'A'), hops=3, early='i', good='a'),
    Case('early-later', 'the same, and no AP_REQUEST in the first token', ('A', 'A'), hops=3, early='i', optimistic=False, good='a'),
    Case('waits-a', 'the acceptor alone has its key early, four tokens; ours waits until the mechanism is done', ('A', 'A'), hops=4, early='a',
         waits=True, sides='a'),
    Case('waits-i', 'the initiator alone has its key early, three tokens; ours waits', ('A', 'A'), hops=3, early='i', waits=True, sides='i'),
    Case('waits-later', 'the same, and no AP_REQUEST in the first token', ('A', 'A'), hops=3, early='i', optimistic=False, waits=True,
         sides='i'),
    Case('alerts-i', "the acceptor alone has its key early, four tokens; ours sends an ALERT", ('A', 'A'), hops=4, early='a', alerts=True,
         sides='i', good=''),
    Case('alerts-a', 'the initiator alone has its key early, three tokens, no AP_REQUEST in the first token; ours sends an ALERT', ('A', 'A'),
         hops=3, early='i', optimistic=False, alerts=True, sides='a', good=''),
    Case('one-token', 'one token of the mechanism', ('A', 'A'), hops=1, good=''),
    Case('one-token-empty', 'the same, and an empty CHALLENGE of our acceptor', ('A', 'A'), hops=1, empty=True, sides='a'),
    Case('one-token-later', 'one token, and no AP_REQUEST in the first token', ('A', 'A'), hops=1, optimistic=False),
    Case('mic-first', 'the mechanism has MICs', ('A', 'A'), mics=True),
    Case('second', 'our NegTokenInit names Kerberos before NEGOEX', ('A', 'A'), second=True, sides='i'),
    Case('second-mic', 'the same, and the mechanism has MICs', ('A', 'A'), mics=True, second=True, sides='i'),
    Case('second-mic-3', 'the same, three tokens', ('A', 'A'), hops=3, mics=True, second=True, sides='i'),
    Case('asks', 'our acceptor asks for a mechListMIC, and the mechanism has MICs', ('A', 'A'), mics=True, asks=True, sides='a'),
    Case('asks-3', 'the same, three tokens', ('A', 'A'), hops=3, mics=True, asks=True, sides='a'),
    Case('mic-none', 'our NegTokenInit names Kerberos first, the mechanism has MICs, and ours sends none', ('A', 'A'), mics=True, second=True,
         wrong='no mic', sides='i', good=''),
    Case('mic-wrong', 'Kerberos first, or our acceptor asks, and our MIC is that of other octets', ('A', 'A'), mics=True, second=True,
         asks=True, wrong='mic', good=''),
    Case('extension', 'our NEGO has an extension of type 5', ('A', 'A'), extension=True, good=''),
    Case('damaged-ours', "a bit of our VERIFY's checksum is changed", ('A', 'A'), wrong='ours', good=''),
    Case('damaged-mit', "a bit of MIT's VERIFY's checksum is changed on its way", ('A', 'A'), wrong='mit', good=''),
    Case('draft-usages', "our end signs with the draft's key usage", ('A', 'A'), usages='draft', good=''),
]
