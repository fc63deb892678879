#!/usr/bin/env python3
"""Asks the bundles of examples/bundles for the containments that docs/COVERAGE.md lists as derived:

    tests/command/coverage.py SPINEBRIAR

Each row of that table whose two first cells are selectors must be a claim of the row's bundle, by the step that the
row names where it names one; a row with no step named has the number of the bundle's steps, also where its new side is
no selector. No row of the tables of those out of reach may be a claim of any bundle. `spinebriar check --claim`
answers, and `check` for rows whose new side is no selector. Each bundle must have a row. It needs Python 3 and
installs nothing.
"""
import glob, re, subprocess, sys

PAGE, NAMES = 'docs/COVERAGE.md', 'examples/bundles/names'


def rows(heading):
    """The rows of the tables under a heading, by cells."""
    part = open(PAGE, encoding='utf-8').read().split('\n## ' + heading)[1].split('\n## ')[0]
    lines = [line for line in part.split('\n') if line.startswith('| `')]
    return [[cell.strip().replace('\\|', '|') for cell in re.split(r'(?<!\\)\|', line)[1:-1]] for line in lines]


def selector(cell):
    found = re.fullmatch('`([^`]*)`', cell)
    return found and found.group(1)


def fail(what, *words):
    raise SystemExit('FAILED: coverage.py: ' + what % words)


def check(spinebriar, bundle, *claim):
    """How many steps the accepted bundle has, and the step that says the claim, or None."""
    command = [spinebriar, 'check', bundle, '--names', NAMES] + (['--claim', *claim] if claim else [])
    done = subprocess.run(command, stdout=subprocess.PIPE, stderr=subprocess.PIPE)
    accepted = re.match(r'accepted: rows \d+, steps (\d+)\n', done.stdout.decode())
    if done.returncode not in (0, 1) or done.stderr or not accepted:
        fail('%s: %s%s', command, done.stdout.decode(), done.stderr.decode())
    said = re.search(r'^yes: step (\d+) says', done.stdout.decode(), re.M)
    if claim and (said is not None) != (done.returncode == 0):
        fail('%s: status %s after %s', command, done.returncode, done.stdout.decode())
    return int(accepted.group(1)), said and int(said.group(1))


def ask(spinebriar, path, old, new, steps, step):
    """`step` is the first one that the row names, or None."""
    count, said = check(spinebriar, path, *([selector(old), selector(new)] if selector(new) else []))
    if selector(new) and said is None:
        fail('%s does not say %s <= %s', path, old, new)
    if step is not None and said != step:
        fail('%s says %s <= %s in step %s, not %s', path, old, new, said, step)
    if step is None and count != steps:
        fail('%s has %s steps, not %s', path, count, steps)


def main():
    spinebriar, bundles, asked = sys.argv[1], set(glob.glob('examples/bundles/*.bundle')), set()
    derived, others = rows('What is derived'), rows('What is out of reach')
    for old, new, bundle, steps, _ in derived:
        name, _, named = bundle.partition(', ')
        path, step = 'examples/bundles/%s.bundle' % name, re.match(r'steps? (\d+)', named)
        asked.add(path)
        ask(spinebriar, path, old, new, int(steps), step and int(step.group(1)))
    if asked != bundles:
        fail('bundles without a row: %s', bundles - asked)
    for old, new, *_ in others:
        if any(check(spinebriar, path, selector(old), selector(new))[1] for path in bundles):
            fail('a bundle says %s <= %s', old, new)
    print('%d rows of %s asked' % (len(derived) + len(others), PAGE))


main()
