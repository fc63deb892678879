#!/usr/bin/env python3
"""Holds the names that pages cite against the tree. Run it at the repository's root:

    python3 tools/names_check.py [PAGE ..]
    python3 tools/names_check.py --selftest

Without pages it takes README.md and all of docs/ but docs/LOOK-BACK.md, which names what older trees had. It needs
Python 3 and git, and installs nothing.
What must be there, of the text that is no block of code:
  - a path: a file with one of the endings below, or what begins with a folder of the repository; below crates/ where it
    isn't at the root; a file's name alone is that of some file;
  - `crate::name` and `Type::name`, and `crate/name`, which is an edit of the crate's must-fail/, or a file or folder of
    it;
  - names in backticks that look like code, with `_` or a capital within: they are words of some specification, proof,
    source or script, comments left out;
  - in `a`, `b` in FILE, a folder too: the names are words of it.
Of docs/TRACE.md beside that: every name in backticks, the names in columns headed Theorem as fields of the page of
theorems, a section for each of docs/SPECIFICATION.md, and in its last table each edit of the tree once.

--selftest changes names on docs/TRACE.md one at a time and fails if one of them goes unseen.
"""
import functools, glob, os, re, subprocess, sys

TRACE, SPECIFICATION = 'docs/TRACE.md', 'docs/SPECIFICATION.md'
ENDINGS = r'(?:antt|rt|py|sh|md|edit|rs|xml|html|bundle)'
AXES = {'self', 'child', 'parent', 'descendant', 'ancestor', 'following', 'preceding', 'attribute'}
# what stands for any name, and the folder that a build makes
PLACEHOLDER = re.compile(r'(^|[/-])(NAME|FILE|PAGE|BUNDLE|NN|F)\b|^crate/|^target(/|$)')
# names of the library and patterns of names
ELSEWHERE = {'read_exact', 'x_yes', 'yes_x'}

FILES = [line for line in subprocess.run(['git', 'ls-files', '--cached', '--others', '--exclude-standard'], text=True,
                                         capture_output=True, check=True).stdout.split('\n') if os.path.exists(line)]
FOLDERS = {'/'.join(path.split('/')[:i]) for path in FILES for i in range(1, path.count('/') + 1)}
CRATES = {path.split('/')[1] for path in FILES if path.startswith('crates/') and path.count('/') > 1}
BASENAMES = {path.split('/')[-1] for path in FILES}
TOP = {path.split('/')[0] for path in FOLDERS}


@functools.lru_cache(None)
def text_of(path):
    with open(path, encoding='utf-8', errors='replace') as file:
        return file.read()


@functools.lru_cache(None)
def words_of(path):
    """The words of a file, without its comments."""
    text = text_of(path)
    if path.endswith('.antt'):
        text = re.sub(r'--.*', '', text)
    elif path.endswith(('.rt', '.rs')):
        text = re.sub(r'//.*', '', text)
    elif path.endswith(('.py', '.sh')):
        text = re.sub(r'#.*', '', text)
    return set(re.findall(r"[A-Za-z_][\w']*", text))


def words_below(prefix):
    return set().union(*[words_of(path) for path in FILES if path.startswith(prefix) and code(path)])


def code(path):
    """A file whose words count: specifications, proofs, sources, scripts."""
    return path.endswith(('.antt', '.rt', '.rs', '.py', '.sh', '.c', '.h')) and path != 'tools/names_check.py'


@functools.lru_cache(None)
def all_words():
    return words_below('')


@functools.lru_cache(None)
def crate_words(crate):
    return words_below('crates/%s/' % crate)


@functools.lru_cache(None)
def theorem_fields():
    paths = [path for path in FILES if re.fullmatch(r'crates/theorems/(proofs|specs)/\w+\.antt', path)]
    return {name for path in paths for name in re.findall(r'^ +pub (\w+) :', text_of(path), re.M)}


@functools.lru_cache(None)
def exists(path):
    """A file or folder; also the end of a file's path, as of one that several crates have."""
    path = path.rstrip('/')
    return any(p in FOLDERS or os.path.isfile(p) for p in (path, 'crates/' + path)) or any(
        file.endswith('/' + path) for file in FILES)


def is_edit(crate, name):
    return os.path.exists('crates/%s/must-fail/%s.edit' % (crate, name))


def prose(text):
    """The text without blocks of code."""
    text = re.sub(r'^```.*?^```', '', text, flags=re.S | re.M)
    return '\n'.join(line for line in text.split('\n') if not line.startswith('    '))


def paths_in(text):
    """What looks like a path, in backticks or not."""
    for found in re.findall(r'(?<![\w/.$<~:*-])(?:\.?[\w-]+[\w.-]*/)+(?:[\w.-]*\w)?', text):
        first, last = found.split('/')[0], found.rstrip('/').split('/')[-1]
        if PLACEHOLDER.search(found) or found.endswith('..'):
            continue
        if re.search(r'\.%s$' % ENDINGS, last) or first in TOP or first in CRATES and found.count('/') > 1:
            yield found
    for found in re.findall(r'(?<![\w/.*-])(\w[\w-]*\.%s)(?![\w/-])' % ENDINGS, text):
        if not PLACEHOLDER.search(found):
            yield found


def path_problems(text):
    for found in set(paths_in(text)):
        known = exists(found) if '/' in found else found in BASENAMES
        if not known and not (found.count('/') == 1 and found.split('/')[0] in CRATES and is_edit(*found.split('/'))):
            yield found


def looks_like_code(name):
    return '_' in name or re.search(r'[a-z][A-Z]|^[A-Z][a-z]', name) is not None


def name_problems(text, strict):
    for quoted in sorted(set(re.findall(r'`([^`\n]+)`', text))):
        edit = re.fullmatch(r'(\w{2,})/(\w{2,})', quoted)
        if edit and (edit.group(1) in CRATES or strict) and not PLACEHOLDER.search(quoted):
            if not is_edit(*edit.groups()) and not exists(quoted):
                yield quoted
            continue
        called = re.fullmatch(r'([A-Za-z_]\w*)((?:::[A-Za-z_]\w*)+)(?:\(.*\))?', quoted)
        if called:
            first, last = called.group(1), called.group(2).split('::')[-1]
            if first in AXES or len(first) == 1:
                continue
            known = crate_words(first) if first in CRATES else all_words()
            if last not in known or first not in CRATES and first not in all_words():
                yield quoted
            continue
        name = re.fullmatch(r"([A-Za-z_][\w']*)(?:\(.*\))?", quoted)
        if name and len(quoted) > 1 and (strict or looks_like_code(quoted)):
            if not (quoted.isupper() or quoted in CRATES or name.group(1) in all_words() | ELSEWHERE):
                yield quoted


def placed_problems(text):
    """Names that are cited with a file or folder."""
    for names, path in re.findall(r'((?:`[^`\n]+`(?:, | and |, and ))*`[^`\n]+`) in ([\w./-]*[\w/])', text):
        if not path.endswith(('.antt', '.rt')) and 'crates/' + path not in FOLDERS:
            continue
        files = [p for p in FILES if ('/' + p).endswith('/' + path) or p.startswith('crates/%s/' % path) and code(p)]
        words = set().union(*[words_of(p) for p in files])
        for name in re.findall(r'`([^`]+)`', names):
            if re.fullmatch(r"[A-Za-z_][\w']*", name) and name not in words:
                yield '%s in %s' % (name, path)


def rows_of(text):
    """The tables of a page: of each its heading cells and its rows."""
    heading = None
    for line in text.split('\n'):
        cells = [cell.strip() for cell in re.split(r'(?<!\\)\|', line)[1:-1]] if line.startswith('|') else None
        if cells is None:
            heading = None
        elif heading is None:
            heading = cells
        elif not set(line) <= set('|-'):
            yield heading, cells


def trace_problems(text):
    for heading, cells in rows_of(text):
        if len(cells) != len(heading):
            yield 'a row of %d cells in a table of %d: %s' % (len(cells), len(heading), cells[0])
        if 'Theorem' in heading:
            cell = re.sub(r'\([^)]*\)', '', cells[heading.index('Theorem')])
            for name in re.findall(r'`([^`]+)`', cell):
                if name not in theorem_fields():
                    yield 'no theorem %s' % name
    sections = lambda page: re.findall(r'^## (.*)$', page, re.M)
    if sections(text)[:-1] != sections(text_of(SPECIFICATION)):
        yield 'its sections are not those of %s' % SPECIFICATION
    listed = [(cells[0], name) for heading, cells in rows_of(text) if heading[0] == 'Crate'
              for cell in cells[1:] for name in cell.split(', ') if name]
    there = [(path.split('/')[1], path.split('/')[-1][:-5]) for path in FILES if path.endswith('.edit')]
    for edit in sorted(set(listed) ^ set(there)):
        yield 'the edit %s/%s is listed and not there, or there and not listed' % edit
    for edit in sorted({edit for edit in listed if listed.count(edit) > 1}):
        yield 'the edit %s/%s is listed twice' % edit


def problems(page, text):
    told = prose(text)
    yield from path_problems(told)
    yield from name_problems(told, page == TRACE)
    yield from placed_problems(told)
    if page == TRACE:
        yield from trace_problems(text)


def selftest():
    text = text_of(TRACE)
    before = sorted(problems(TRACE, text))
    body = text.index('\n## ')
    count, unseen = 0, []
    for match in list(re.finditer(r'`[A-Za-z_/:]*[A-Za-z_]{3,}`|[\w/]+\.(?:antt|rt)', text))[::11]:
        if match.start() < body or match.group().strip('`').isupper():
            continue
        for at in (match.start() + 2, match.end() - 2):
            count += 1
            if sorted(problems(TRACE, text[:at] + 'Zq' + text[at:])) == before:
                unseen.append(text[match.start():at] + 'Zq' + text[at:match.end()])
    print('%d changes of names, %d seen' % (count, count - len(unseen)), *unseen)
    return not unseen


def main():
    if sys.argv[1:] == ['--selftest']:
        sys.exit(0 if selftest() else 1)
    all_pages = sorted(set(glob.glob('docs/*.md') + glob.glob('docs/changes/*.md')) - {'docs/LOOK-BACK.md'})
    pages = sys.argv[1:] or ['README.md'] + all_pages
    wrong = 0
    for page in pages:
        found = sorted(set(problems(page, text_of(page))))
        wrong += len(found)
        print('%s: %s' % (page, 'all there' if not found else '%d not there' % len(found)))
        for name in found:
            print('  ' + name)
    sys.exit(1 if wrong else 0)


if __name__ == '__main__':
    main()
