#!/usr/bin/env python3
"""Respells the repository's own names, once, right after the older kit's spelling was turned: definitions, laws and their parameters in snake case.

usage: python3 tools/respell.py [TOP]

By text. In specs/ and proofs/ a name is turned where it has a hyphen or a capital behind its first letter, unless the file imports it from the kit's
libraries. In proofs/F/, where hyphens join what the check makes, and in the clauses of src/, only names that specs/ and proofs/ define are turned.
Types, modules, constructors that begin with a capital, functions of src/, strings and numbers stay."""
import pathlib
import re
import sys

TOP = pathlib.Path(sys.argv[1] if len(sys.argv) > 1 else '.')
NAME = re.compile(r"[A-Za-z_][\w'?-]*")
# a line's code and its comment
COMMENT = {'.antt': '--', '.rt': '//'}
# what would fall together with another name
APART = {
    'reply-text': 'reply_text_is', 'no-rule': 'rule_none', 'at-arm': 'at_an_arm', 'image-words': 'image_words_are',
    'operated-constructor': 'operated_constructor_stuck', 'operated-endless': 'operated_endless_stuck',
    'number-in': 'number_in_is', 'place-in': 'place_in_is', 'call-words': 'call_words_are',
}
DEFINES = re.compile(r"\s*(?:(?:pub|unfoldable|abbrev|data|record|ruleset|mod|module) )*([A-Za-z_][\w'?-]*)\s*(?::|\(|\{|=)")


def old_spelling(name):
    return '-' in name or re.match(r'_*[a-z]\w*[A-Z]', name) is not None


def respelled(name):
    if name in APART:
        return APART[name]
    name = re.sub(r'-', '_', name)
    return re.sub(r'(?<=[a-z0-9ᵃᵗᵛᶜ])([A-Z])', lambda m: '_' + m[1].lower(), name)


def parts(line, mark):
    at = line.find(mark)
    # a comment's mark inside a string is no comment
    if at >= 0 and line[:at].count('"') % 2 == 0:
        return line[:at], line[at:]
    return line, ''


def code_of(text, mark):
    return '\n'.join(parts(line, mark)[0] for line in text.splitlines())


def imported(code, own):
    """The names that the file imports from elsewhere than the repository's crates."""
    names = set()
    for path, items in re.findall(r'^use ([^\s{]+)\.\{([^}]*)\}', code, re.M):
        top = path.split('.')
        if not (top[0] == 'Rattle' and len(top) > 1 and top[1] in own):
            names |= {word for item in items.split(',') for word in item.split()}
    return names


def turn(text, mark, turned):
    def word(match):
        name = match[0]
        return respelled(name) if name in turned else name

    def strings_apart(code):
        pieces = code.split('"')
        pieces[::2] = [NAME.sub(word, p) for p in pieces[::2]]
        return '"'.join(pieces)

    def quoted(match):
        return '`' + NAME.sub(word, match[1]) + '`'

    lines = []
    for line in text.split('\n'):
        code, comment = parts(line, mark)
        lines.append(strings_apart(code) + re.sub(r'`([^`\n]*)`', quoted, comment))
    return '\n'.join(lines)


def main():
    own = {line.split(':')[0].split()[0] for line in (TOP / 'crates.txt').read_text().splitlines() if line.strip() and not line.startswith('#')}
    theory = sorted(p for d in ('specs', 'proofs') for p in TOP.glob(f'crates/*/{d}/*.antt'))
    walks = sorted(TOP.glob('crates/*/proofs/*/*.antt'))
    sources = sorted(TOP.glob('crates/*/src/*.rt'))
    defined = set()
    for path in theory:
        text = path.read_text(encoding='utf-8')
        code = code_of(text, COMMENT['.antt'])
        names = {m for m in NAME.findall(re.sub(r'"[^"]*"', '', code)) if old_spelling(m) and not re.match(r'x[0-9A-F]+$', m)}
        names -= imported(code, own)
        defined |= {m[1] for line in code.splitlines() if (m := DEFINES.match(line)) and m[1] in names}
        path.write_text(turn(text, COMMENT['.antt'], names), encoding='utf-8')
    for path in walks + sources:
        text = path.read_text(encoding='utf-8')
        mark = COMMENT[path.suffix]
        code = code_of(text, mark)
        here = {m[1] for line in code.splitlines() if (m := DEFINES.match(line))} if path in walks else set()
        path.write_text(turn(text, mark, defined - here - imported(code, own)), encoding='utf-8')
    print(f'respell: {len(defined)} names defined here were turned')


main()
