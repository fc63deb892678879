#!/usr/bin/env python3
"""Writes docs/CRATES.md from crates.txt and from the comments at the heads of the crates' lib.rt and main.rt:

    python3 tools/crates_page.py           writes the page
    python3 tools/crates_page.py --check   fails where the page is not what would be written, or a crate has no head

It needs Python 3 and installs nothing.
"""
import glob, re, sys, textwrap

PAGE = 'docs/CRATES.md'
HEAD = '''# The crates

For maintainers: what each crate is for, in the order of crates.txt, so that each stands after those that it uses. The
sentences are the heads of the crates' lib.rt or main.rt; `python3 tools/crates_page.py` writes this page from them, and
`--check` holds it against them. docs/READING.md says what the folders of a crate have, and has their specifications in
reading order.

'''


def words(lines):
    return ' '.join(' '.join(lines).split())


def head(crate):
    """The comment at the head of the crate's root file, up to the first line that is none."""
    [path] = glob.glob('crates/%s/src/lib.rt' % crate) or glob.glob('crates/%s/src/main.rt' % crate)
    comment = []
    for line in open(path, encoding='utf-8'):
        found = re.match(r'//[/!]? ?(.*)', line)
        if not found:
            break
        comment.append(found.group(1))
    if not comment:
        raise SystemExit('%s has no comment at its head' % path)
    return words(comment)


def entry(crate, kind, uses):
    text = '- **%s**%s: %s' % (crate, ' (%s)' % kind if kind else '', head(crate))
    text += ' Uses %s.' % uses if uses else ''
    return '\n'.join(textwrap.wrap(text, 119, subsequent_indent='  ', break_long_words=False, break_on_hyphens=False))


def page():
    """A heading for each comment of crates.txt, and the crates under it."""
    made = []
    for line in open('crates.txt', encoding='utf-8').read().split('\n'):
        if line.startswith('#'):
            title = line.lstrip('# ')
            made.append('\n## ' + title[0].upper() + title[1:] + '\n')
        elif line:
            name, _, uses = line.partition(':')
            crate, *kind = name.split()
            made.append(entry(crate, ' '.join(kind), ', '.join(uses.split())))
    return HEAD + '\n'.join(made).lstrip('\n') + '\n'


def main():
    made = page()
    if sys.argv[1:] == ['--check']:
        if open(PAGE, encoding='utf-8').read() != made:
            raise SystemExit('%s is not what tools/crates_page.py writes' % PAGE)
        print('%s: the same' % PAGE)
    elif len(sys.argv) == 1:
        open(PAGE, 'w', encoding='utf-8').write(made)
    else:
        raise SystemExit(__doc__)


main()
