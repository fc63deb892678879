#!/usr/bin/env python3
"""Lists the files that have to be believed and counts their lines. Run it at the repository's root:

    python3 tools/believed.py            the files, each with its lines, and the sums
    python3 tools/believed.py --check    fails where docs/PROVED.md has other sums, where a definition takes something of
                                         specs/private/ that isn't named below, or of specs/values/

Believed is what the theorems (crates/theorems/specs/) reach by `use` lines, in specs/ and specs/represent/ of crates,
and what a type's `ghost view` in a source names; what a theorem cites of a crate's proofs/ is what the toolchain reads
off the source. Counted are all lines but those that are empty and `use` lines, and all lines. It needs Python 3 and
installs nothing.
"""
import glob, os, re, sys

PAGE, PROVED = 'crates/theorems/specs/*.antt', 'docs/PROVED.md'
USE = re.compile(r'^use Rattle\.(\w+)\.specs\.([\w.]+?)(?:\.\{[^}]*\})?(?: as [\w-]+)?$', re.M)
# what is reached of specs/private/ and needs no belief, with what decides it
DECIDED = {
    'crates/matching/specs/private/RowYields.antt': 'the theorem matcher_decides',
    'crates/selector_grammar/specs/private/ReaderAnswer.antt': 'the theorem answers_as_defined',
    'crates/reversing/specs/private/RowsBack.antt': 'the theorem way_back_guarantee',
    'crates/rules/specs/private/RuleFits.antt': 'the type of yields_dec',
}


def text_of(path):
    with open(path, encoding='utf-8') as file:
        return file.read()


def uses(path):
    """The files of specs/ that a file takes something from."""
    for crate, module in USE.findall(text_of(path)):
        found = 'crates/%s/specs/%s.antt' % (crate, module.replace('.', '/'))
        if os.path.exists(found):
            yield found


def views():
    """The files that have what a type is to specifications."""
    for source in glob.glob('crates/*/src/*.rt'):
        for name in re.findall(r'ghost view = \{ (\w+) \}', text_of(source)):
            for crate, module, names in re.findall(r'ghost use Rattle\.(\w+)\.specs\.([\w.]+)\.\{([^}]*)\}', text_of(source)):
                if name in names.split(', '):
                    yield 'crates/%s/specs/%s.antt' % (crate, module.replace('.', '/'))


def reached():
    """The files that are believed, and those of other folders that these take something from."""
    pages = set(glob.glob(PAGE))
    believed = set(views())
    others, todo = set(), [*pages, *believed]
    while todo:
        for path in uses(todo.pop()):
            if '/private/' in path or '/values/' in path:
                others.add(path)
            elif path not in believed | pages:
                believed.add(path)
                todo.append(path)
    return sorted(believed), sorted(others)


def lines(path):
    """All lines of a file, and those that say something."""
    every = text_of(path).split('\n')[:-1]
    return len(every), len([line for line in every if line.strip() and not line.startswith('use ')])


def main():
    believed, others = reached()
    sums = [sum(counts) for counts in zip(*[lines(path) for path in believed])]
    told = '%d files with %s lines' % (len(believed), format(sums[1], ','))
    if sys.argv[1:] == ['--check']:
        wrong = ['%s is reached' % path for path in others if path not in DECIDED]
        if told not in ' '.join(text_of(PROVED).split()):
            wrong.append('%s has not: %s' % (PROVED, told))
        print(*wrong or ['%s: the same' % PROVED], sep='\n')
        sys.exit(1 if wrong else 0)
    if len(sys.argv) != 1:
        raise SystemExit(__doc__)
    for path in believed:
        print('%5d %5d  %s' % (*lines(path)[::-1], path))
    print('%s, %d with empty and use lines' % (told, sums[0]))
    for path in others:
        print('not believed: %s (%s)' % (path, DECIDED.get(path, 'NOT DECIDED')))


if __name__ == '__main__':
    main()
