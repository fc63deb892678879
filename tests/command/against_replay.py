#!/usr/bin/env python3
"""Holds `spinebriar file` against the proved program replay on COUNT lists of random calls:

    tests/command/against_replay.py SPINEBRIAR COUNT

The same lines and a last `write 65536` go to replay. The first refused call must be the same, with the same number, or
the bundle.

run.sh makes what it needs; it installs nothing.
"""
import random, subprocess, sys

RULES = [1, 2, 3, 4, 5, 6, 7, 8, 9, 14, 27, 28, 29, 60]


def call(chance, rows, steps):
    """A line, which is accepted rather often."""
    kind = chance.randrange(14)
    old = lambda count: chance.randrange(count + 1)
    if kind < 5:
        row = chance.choice([(2, chance.randrange(13), 0, chance.randrange(5)), (2, chance.randrange(12), 1, 0),
                             (4, old(rows), old(rows), 0), (3, old(rows), old(rows), 0), (6, 0, 0, 0), (0, 0, 0, 0)])
        return 'term %d %d %d %d' % row
    if kind < 9:
        side = old(rows)
        other = chance.choice([side, old(rows)])
        premises = chance.choice([(0, 0), (0, 0), (0, 0), (old(steps), 0), (old(steps), old(steps))])
        return 'step %d %d %d %d %d' % ((chance.choice(RULES), side, other) + premises)
    if kind == 9:
        return 'point %d' % chance.randrange(6)
    if kind == 10:
        return 'return %d' % chance.randrange(5)
    if kind == 11:
        return chance.choice(['names', 'names a', 'names a b', 'names b a ', 'names  a'])
    if kind == 12:
        return 'text ' + chance.choice(['a', 'b', '//a', 'a/b', 'a|b', 'a[b]', '/', 'c', 'a]', ''])
    return chance.choice(['text', 'term 2 01 0 2', 'point 65536', 'term 2 1 0', 'jump', '', 'step 1 1 1 1 1 1', 'point 1 '])


def replay(lines):
    text = ''.join(line + '\n' for line in lines)
    done = subprocess.run(['target/bin/replay'], input=text.encode(), stdout=subprocess.PIPE)
    return done.stdout.decode().split('\n')[:-1]


def calls_in(lines):
    return sum(not line.startswith('names') for line in lines)


def calls(chance):
    """A list of calls, of which at most the last one is refused."""
    lines, rows, steps = [], 0, 0
    for _ in range(chance.randrange(1, 60)):
        line = call(chance, rows, steps)
        # replay prints nothing for names
        answer = (replay(lines + [line])[calls_in(lines):] or ['0 0'])[0]
        if answer.startswith('0 ') or chance.random() < 0.03:
            lines.append(line)
            if not answer.startswith('0 '):
                return lines, answer.split()[0]
            rows, steps = rows + line.startswith(('term', 'text')), steps + line.startswith('step')
    return lines, '0'


def main():
    spinebriar, count, chance = sys.argv[1], int(sys.argv[2]), random.Random(29)
    refused = 0
    for _ in range(count):
        lines, answer = calls(chance)
        text = ''.join(line + '\n' for line in lines)
        done = subprocess.run([spinebriar, 'file', '-'], input=text.encode(), stdout=subprocess.PIPE,
                              stderr=subprocess.PIPE)
        if answer == '0':
            wanted = ''.join(line + '\n' for line in replay(lines + ['write 65536'])[calls_in(lines) + 1:])
            right = done.returncode == 0 and done.stdout.decode() == wanted
        else:
            refused += 1
            said = 'spinebriar: -: refused at line %d: %s, ' % (len(lines), answer)
            right = done.returncode == 1 and not done.stdout and done.stderr.decode().startswith(said)
        if not right:
            raise SystemExit('FAILED: against_replay.py: %s\n%s\n%s' % (text, answer, done))
    print('%d lists of calls compared with replay, %d of them refused' % (count, refused))


main()
