#!/usr/bin/env python3
"""Holds `spinebriar` against the proved program audit, and explain against itself:

    tests/command/against_audit.py SPINEBRIAR COUNT

COUNT bundles are made by small damage to those of the repository. Of each, check must give audit's number and line.
The text that explain prints of an accepted one, read by tools/bundle.py, must be a bundle with the same steps, term
for term.

run.sh makes what it needs; it installs nothing.
"""
import glob, os, random, subprocess, sys, tempfile

sys.path.insert(0, 'tools/compare')
from cases import damaged  # noqa: E402

NAMES = 'examples/bundles/names'
SOURCES = 'examples/bundles/*.bundle', 'crates/audit_cases/data/*', 'crates/tally_cases/data/*', 'crates/*/stdin'


def run(command, text):
    done = subprocess.run(command, input=text, stdout=subprocess.PIPE, stderr=subprocess.PIPE)
    return done.returncode, done.stdout


def terms_of(text, known):
    """The steps of an accepted bundle, rows as numbers in `known`, which has a number for each term."""
    rows, steps, kinds_with = [], [], {3: 2, 4: 2, 5: 2, 8: 1, 9: 2, 10: 2, 11: 2}
    lines = text.decode().split('\n')[1:-1]
    middle = lines.index('rule left right first second')
    for line in lines[:middle]:
        kind, *fields = map(int, line.split())
        operands = kinds_with.get(kind, 0)
        term = (kind,) + tuple(rows[x] if i < operands else x for i, x in enumerate(fields))
        rows.append(known.setdefault(term, len(known)))
    for line in lines[middle + 1:]:
        rule, left, right, first, second = map(int, line.split())
        steps.append((rule, rows[left], rows[right], first, second))
    return steps


def differs(spinebriar, text):
    answer, line = run(['target/bin/audit'], text)[1].split(b'\n')[1].split()[:2]
    status, said = run([spinebriar, 'check', '-'], text)
    if answer != b'0':
        wanted = b'refused at line %s: %s,' % (line, answer) if line != b'0' else b'refused: more than'
        return None if status == 1 and said.startswith(wanted) else 'audit answers %s %s' % (answer, line)
    if status != 0 or not said.startswith(b'accepted'):
        return 'audit accepts it'
    status, explained = run([spinebriar, 'explain', '-', '--names', NAMES], text)
    back = run(['python3', 'tools/bundle.py', NAMES], explained)
    known = {}
    if status != 0 or back[0] != 0 or terms_of(text, known) != terms_of(back[1], known):
        return 'explain says something else'
    return None


def main():
    spinebriar, count, chance = sys.argv[1], int(sys.argv[2]), random.Random(29)
    found = sorted(set(sum(map(glob.glob, SOURCES), [])))
    sources = [text for text in (open(path, 'rb').read() for path in found) if text.startswith(b'kind')]
    cases = sources + [damaged(chance, chance.choice(sources)) for _ in range(count)]
    for text in cases:
        why = differs(spinebriar, text)
        if why:
            path = os.path.join(tempfile.gettempdir(), 'different_bundle')
            open(path, 'wb').write(text)
            raise SystemExit('FAILED: against_audit.py: %s: %s' % (path, why))
    print('%d bundles compared with audit' % len(cases))


main()
