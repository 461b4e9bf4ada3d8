#!/usr/bin/env python3
"""What every script does alike with its words: --version, --help, and a line for a word that it doesn't know. Python's standard library alone.

For the scripts of the shell:
    ./words.py version NAME              prints the version of the script NAME: its commit, or its release of CHANGELOG.md, and the kit
    ./words.py release                   prints the commit, or the release, alone
    ./words.py refuse NAME [WORD ..]     says of the first word that NAME doesn't know it, or that a word is missing, and ends with 3
"""
import argparse
import os
import re
import subprocess
import sys

TOP = os.path.dirname(os.path.realpath(__file__))


def told_by(*command):
    """What a command prints, without the blanks around it; None where it isn't there or fails."""
    try:
        done = subprocess.run(command, capture_output=True, text=True, stdin=subprocess.DEVNULL)
    except OSError:
        return None
    return done.stdout.strip() if done.returncode == 0 else None


def release():
    """The commit and whether files changed since, or where this is no repository the newest heading of CHANGELOG.md."""
    commit = told_by('git', '-C', TOP, 'rev-parse', '--short=8', 'HEAD') if os.path.exists(os.path.join(TOP, '.git')) else None
    if commit:
        return f'commit {commit}' + (' and changes' if told_by('git', '-C', TOP, 'status', '--porcelain', '--untracked-files=no') else '')
    try:
        with open(os.path.join(TOP, 'CHANGELOG.md'), encoding='utf-8') as file:
            return f'release {re.search("^## (.*)$", file.read(), re.M)[1]}'
    except (OSError, TypeError):
        return 'no commit and no release'


def version(name):
    return f'{name}: {release()}; {told_by("rt", "version") or "no kit on the path"}'


def unknown(given):
    """What is said of words of which the first isn't known."""
    return f'unknown word {given[0]!r}; --help' if given else 'a word is missing; --help'


def refuse(name, given):
    """Says that the first word isn't known, and ends."""
    print(f'{name}: {unknown(given)}', file=sys.stderr)
    sys.exit(3)


def answer(name, text, given):
    """Prints what --help or --version asks for, and ends; does nothing where neither is asked for."""
    if given in (['--help'], ['-h']):
        print(text.strip())
    elif given == ['--version']:
        print(version(name))
    else:
        return
    sys.exit(0)


class Version(argparse.Action):
    """The word --version of a parser: as --help, it ends the script wherever it stands."""

    def __call__(self, parser, *_):
        parser.report(version(parser.prog) + '\n')
        sys.exit(0)


class Parser(argparse.ArgumentParser):
    """Words with values. `say` takes a line without the script's name, `report` what was asked for."""

    def __init__(self, name, text, say=None, report=None):
        super().__init__(prog=name, description=text, formatter_class=argparse.RawDescriptionHelpFormatter, usage=argparse.SUPPRESS)
        self.say = say or (lambda why: print(f'{name}: {why}', file=sys.stderr))
        self.report = report or (lambda told: print(told, end=''))
        self.add_argument('--version', action=Version, nargs=0, help='print the commit and the kit')

    def error(self, message):
        self.say(f'{message}; --help')
        sys.exit(3)

    def print_help(self, file=None):
        self.report(self.format_help())

    def parse_args(self, args=None, namespace=None):
        given = sys.argv[1:] if args is None else args
        left = [word for word in given if word.startswith('--') and not self.takes(word)]
        if not left:
            asked, left = self.parse_known_args(given, namespace)
        if left:
            self.say(unknown(left))
            sys.exit(3)
        return asked

    def takes(self, word):
        """Whether a word is one of the options, or the beginning of one."""
        return any(option.startswith(word.split('=')[0]) for option in self._option_string_actions)


if __name__ == '__main__':
    if sys.argv[1:2] == ['version'] and len(sys.argv) == 3:
        print(version(sys.argv[2]))
    elif sys.argv[1:] == ['release']:
        print(release())
    elif sys.argv[1:2] == ['refuse'] and len(sys.argv) > 2:
        refuse(sys.argv[2], sys.argv[3:])
    else:
        answer('words.py', __doc__, sys.argv[1:])
        refuse('words.py', sys.argv[1:])
