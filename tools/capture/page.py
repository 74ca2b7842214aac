"""The marked parts of docs/PEERS.md: tables and sentences that a run writes anew."""
import os
import sys

from asking import NoAnswer, octets_of, save


def table(heads, lines):
    return ['| ' + ' | '.join(heads) + ' |', '|---' * len(heads) + '|'] + ['| ' + ' | '.join(cells) + ' |' for cells in lines]


def with_parts(text, parts):
    """The page's text with these parts, and the names of those that are new."""
    changed = []
    for name, lines in parts.items():
        begin, end = f'<!-- {name} -->\n', f'<!-- end of {name} -->\n'
        if begin not in text or end not in text:
            raise NoAnswer(f'the page has no marked part "{name}"')
        before, rest = text.split(begin, 1)
        old, behind = rest.split(end, 1)
        new = '\n'.join(lines) + '\n'
        changed += [name] if new != old else []
        text = before + begin + new + end + behind
    return text, changed


def write_page(page, measured):
    """Writes the parts that `measured` answers, as lines by their names, in one step, when all have answered."""
    try:
        parts = measured()
        text, changed = with_parts(octets_of(page).decode(), parts)
    except NoAnswer as reason:
        sys.exit(f'capture: {reason}; {page} is as it was')
    save(page + '.new', text.encode())
    os.replace(page + '.new', page)
    print(f'capture: {page} has the answers; ' + (f'new are: {", ".join(changed)}' if changed else 'none is new'), file=sys.stderr)
