#!/usr/bin/env python3
"""Runs the examples of the pages and compares what they print:

    tests/examples.py [PAGE..]       without pages those that have examples: README, docs, the man page
    tests/examples.py --selftest     sees that each page fails where what it says of an example is changed

An example is an indented block of a .md page, or one between .EX and .EE of a man page. A line after `$ ` is a
command for sh, run at the repository's root, with the next line where it ends in a backslash, and the lines up to END
where it ends in <<'END'; the lines up to the next command are what it prints, messages too. `..` stands for any
lines. A block without `$ ` is no example.

It needs spinebriar in PATH (make -C host), the programs audit, prove, replay, tally and limits in target/bin
(tools/programs.sh), cc and python3, and installs nothing.
"""
import os, re, subprocess, sys

PAGES = ['README.md', 'docs/GUIDE.md', 'docs/FORMAT.md', 'docs/EMBEDDING.md', 'host/spinebriar.1']


def text_of(path):
    return open(path, encoding='utf-8').read()


def blocks(path, text):
    if path.endswith('.md'):
        found = re.findall(r'(?:^    .*\n)+', text, re.M)
        return [[line[4:] for line in block.split('\n')[:-1]] for block in found]
    found = re.findall(r'^\.EX\n(.*?)^\.EE', text, re.M | re.S)
    return [block.replace('\\-', '-').replace('\\e', '\\').replace('\\(aq', "'").split('\n')[:-1] for block in found]


def unfinished(command):
    here = re.search(r"<<'(\w+)'", command)
    return command.endswith('\\') or (here is not None and command.split('\n')[-1] != here.group(1))


def commands(block):
    """The commands of a block, each with the lines that it prints."""
    made = []
    for line in block:
        if made and not made[-1][1] and unfinished(made[-1][0]):
            made[-1] = (made[-1][0] + '\n' + line, [])
        elif line.startswith('$ '):
            made.append((line[2:], []))
        elif made:
            made[-1][1].append(line)
    return made


def examples(path, text):
    return [pair for block in blocks(path, text) for pair in commands(block)]


def printed_by(command):
    done = subprocess.run(['sh', '-c', command], stdout=subprocess.PIPE, stderr=subprocess.STDOUT)
    return done.stdout.decode()


def prints(wanted, printed):
    pattern = ''.join(r'(?:.*\n)*' if line == '..' else re.escape(line) + r'\n' for line in wanted)
    return re.fullmatch(pattern, printed) is not None


def run(path, text):
    """How many examples the page has, or an exit where one prints something else."""
    found = examples(path, text)
    for command, wanted in found:
        printed = printed_by(command)
        if not prints(wanted, printed):
            raise SystemExit('FAILED: %s: %s\nprints %s\nnot    %s' % (path, command, printed, wanted))
    if not found:
        raise SystemExit('FAILED: %s has no examples' % path)
    return len(found)


def wrong_pages(path, text):
    """The page with the last printed line of its first example of more than one line changed, left out and doubled."""
    lines = text.split('\n')
    command, wanted = next(pair for pair in examples(path, text) if len(pair[1]) > 1 and '..' not in pair[1])
    indent = '    ' if path.endswith('.md') else ''
    shown = [indent + line if indent else line.replace('\\', '\\e').replace('-', '\\-') for line in wanted]
    at = next(i for i in range(len(lines)) if lines[i:i + len(shown)] == shown) + len(shown) - 1
    for changed in ([lines[at] + ' x'], [], [lines[at]] * 2):
        yield '\n'.join(lines[:at] + changed + lines[at + 1:])


def selftest():
    missed = []
    for path in PAGES:
        for page in wrong_pages(path, text_of(path)):
            try:
                run(path, page)
                missed.append(path)
            except SystemExit as failed:
                assert str(failed).startswith('FAILED: %s: ' % path), failed
    if missed:
        raise SystemExit('FAILED: examples.py takes wrong pages: %s' % missed)
    print('%d wrong pages, each found' % (3 * len(PAGES)))


def main():
    if sys.argv[1:] == ['--selftest']:
        return selftest()
    print('%d examples run' % sum(run(path, text_of(path)) for path in sys.argv[1:] or PAGES))


if __name__ == '__main__':
    os.chdir(os.path.join(os.path.dirname(os.path.abspath(__file__)), '..'))
    main()
