#!/usr/bin/env python3
"""Brings this repository's own definitions and laws to the spelling of today's Rattle: snake case, as `storeCall` to `store_call` and `each-sub` to `each_sub`.

Run once at the top, right after port.py. Types, modules, the labels of goals, Rattle's and the library's names, functions of src/, comments and strings keep theirs.
"""
import collections
import pathlib
import re
import sys

# a definition and a law about it, or two laws, that the new spelling would give one name: the second gets a name of its own
APART = {
    'add_at': 'add_at_is', 'answer-words': 'answer_words_are', 'delete-found': 'delete_found_is', 'entries-sound': 'entries_sound_is', 'entry-sound': 'entry_sound_is',
    'expire-found': 'expire_found_is', 'first-free': 'first_free_is', 'fit-within': 'fit_within_is', 'fits-kind': 'fits_kind_is', 'fresh-word': 'fresh_word_is',
    'get-found': 'get_found_is', 'incr-found': 'incr_found_is', 'incr-initial': 'incr_initial_is', 'incr-live': 'incr_live_is', 'incr-new': 'incr_new_is',
    'key-part': 'key_part_is', 'mark-by': 'mark_by_is', 'memory-of': 'memory_of_is', 'more_of': 'more_of_is', 'next-turn': 'next_turn_is', 'none-shared': 'none_shared_is',
    'place-anew': 'place_anew_is', 'placed_by': 'placed_by_is', 'rest-for': 'rest_for_is', 'round-of': 'round_of_is', 'same_length': 'same_length_is',
    'store-admitted': 'store_admitted_is', 'store-item': 'store_item_is', 'store-over': 'store_over_is', 'store_found': 'store_found_is', 'too-late': 'too_late_is',
    'value-bytes': 'value_bytes_are',
}
WORD = r"[A-Za-z_'₀-₉][\w'₀-₉-]*"
HEAD = re.compile(r"^(\s*)(?:abbrev |unfoldable |pub |data |record |ruleset )*((?:%s )*%s) :\s+(.*)$" % (WORD, WORD))
TOKEN = re.compile(r"(?<![\w'₀-₉-])%s" % WORD)
FOREIGN = re.compile(r"^use (?:Rattle\.std|mathlib|lib|native|Prim|borrow|denote)\b.*?\{(.*)\}")
TAKEN = re.compile(r"^use .*\{(.*)\}")
# a goal's or a statement's name: what it labels keeps its dashes
LABEL = re.compile(r"^(?:tie|goal|given)\.")


def snake(name):
    if not name[:1].islower():
        return name
    name = re.sub(r"([a-z0-9])([A-Z])", lambda m: m.group(1) + '_' + m.group(2).lower(), name)
    return re.sub(r"-", '_', name)


def files(root, *globs):
    return sorted(p for g in globs for p in root.glob(g) if '/out/' not in str(p))


def code(line, mark):
    """The line's code and its comment."""
    at = line.find(mark)
    while at > 0 and line[:at].count('"') % 2:
        at = line.find(mark, at + 1)
    if at < 0 or (mark == '--' and at > 0 and line[at - 1] not in ' '):
        return line, ''
    return line[:at], line[at:]


def defined(root):
    """The names that the repository defines, and those of them that are fields of records."""
    names, fields = set(), set()
    for p in files(root, 'crates/*/specs/**/*.antt', 'crates/*/proofs/**/*.antt'):
        record = False
        for line in p.read_text().splitlines():
            text, _ = code(line, '--')
            if re.match(r'\S', text):
                record = re.match(r'(?:pub )?record ', text) is not None
            m = HEAD.match(text)
            if m and not text.strip().startswith('let ') and not LABEL.match(m.group(3)):
                names.update(m.group(2).split())
                if record and m.group(1):
                    fields.update(m.group(2).split())
    return names, fields


def mapping(root):
    names, fields = defined(root)
    to = {}
    for name in names:
        new = APART.get(name, snake(name))
        if new != name:
            to[name] = new
    made = collections.defaultdict(set)
    for name in names:
        made[to.get(name, name)].add(name)
    for new, olds in sorted(made.items()):
        if len(olds) > 1:
            sys.exit(f'respell: {sorted(olds)} fall together as {new}')
    return to, fields, names | set(to.values())


def turn_code(text, to, keep, fields):
    def turned(m):
        name = m.group(0)
        if name in keep or (m.string[m.start() - 1:m.start()] == '.' and name not in fields and not m.string[:m.start()].lstrip().startswith('use ')):
            return name
        return to.get(name, name)

    parts = re.split(r'("(?:[^"\\]|\\.)*")', text)
    return ''.join(s if s.startswith('"') else TOKEN.sub(turned, s) for s in parts)


def turn_quoted(text, to, names):
    """In a comment or a page: a name between backquotes, and a name with a capital inside. port.py has turned some names already, but no page."""
    def turned(m):
        name = m.group(0)
        return to.get(name) or (snake(name) if snake(name) in names else name)

    text = re.sub(r"`([^`]*)`", lambda m: '`' + TOKEN.sub(turned, m.group(1)) + '`', text)
    return TOKEN.sub(lambda k: turned(k) if re.search('[a-z][A-Z]', k.group(0)) else k.group(0), text)


def labels(text):
    """The labels of goals that a file defines."""
    found = set()
    for line in text.splitlines():
        m = HEAD.match(line)
        if m and LABEL.match(m.group(3)):
            found.update(m.group(2).split())
    return found


def turn_antt(p, to, fields, names):
    text = p.read_text()
    keep = labels(text)
    for line in text.splitlines():
        m = FOREIGN.match(line)
        if m:
            keep.update(re.findall(WORD, m.group(1)))
    out = []
    for line in text.split('\n'):
        body, comment = code(line, '--')
        if body.startswith('use Rattle.') and '.proofs.' in body and '{' not in body:
            out.append(line)
            continue
        out.append(turn_code(body, to, keep, fields) + turn_quoted(comment, to, names))
    new = '\n'.join(out)
    if new != text:
        p.write_text(new)


def turn_rt(p, to, fields, names):
    text = p.read_text()
    out = []
    for line in text.split('\n'):
        body, comment = code(line, '//')
        if re.match(r"\s*(?:ghost|requires|ensures|\{)|\s*pub ghost", body):
            body = turn_code(body, to, (), fields)
        out.append(body + turn_quoted(comment, to, names))
    new = '\n'.join(out)
    if new != text:
        p.write_text(new)


def main():
    root = pathlib.Path('.')
    to, fields, names = mapping(root)
    for p in files(root, 'crates/*/specs/**/*.antt', 'crates/*/proofs/**/*.antt'):
        turn_antt(p, to, fields, names)
    for p in files(root, 'crates/*/src/**/*.rt'):
        turn_rt(p, to, fields, names)
    for p in files(root, 'README.md', 'docs/*.md', 'crates/*/must-fail/*'):
        if p.name == 'PORT.md':
            continue
        text = p.read_text()
        new = turn_quoted(text, to, names) if p.suffix == '.md' else '\n'.join(turn_edit(x, to, fields) for x in text.split('\n'))
        if new != text:
            p.write_text(new)
    print(f'respell: {len(to)} names')
    if len(sys.argv) > 1:
        pathlib.Path(sys.argv[1]).write_text(''.join(f'{a}\t{b}\n' for a, b in sorted(to.items())))


def turn_edit(line, to, fields):
    if line.startswith(('old: ', 'new: ')) and re.search(r"≡|^(old|new): (ghost|requires|ensures)|[a-z]-[a-z]|[a-z][A-Z]", line):
        return turn_code(line, to, (), fields)
    return line


if __name__ == '__main__':
    main()
