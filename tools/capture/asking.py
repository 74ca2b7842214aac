"""A command that is asked, and what it printed."""
import os
import subprocess


class NoAnswer(Exception):
    """Somebody who was asked gave no answer that can stand in a table."""


def asked(command, keep, environment=None):
    """The status of a command and what it prints; all that it prints is kept in the file `keep`."""
    try:
        done = subprocess.run(command, capture_output=True, env={**os.environ, **(environment or {})}, check=False, timeout=60)
    except FileNotFoundError:
        raise NoAnswer(f'there is no program {command[0]}') from None
    except subprocess.TimeoutExpired:
        raise NoAnswer(f'not ended after a minute: {" ".join(command)}') from None
    text = done.stdout.decode(errors='replace')
    with open(keep, 'w', encoding='utf-8') as file:
        file.write(text + done.stderr.decode(errors='replace'))
    return done.returncode, text


def octets_of(path):
    with open(path, 'rb') as file:
        return file.read()


def save(path, octets):
    with open(path, 'wb') as file:
        file.write(octets)
