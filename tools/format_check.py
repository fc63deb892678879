#!/usr/bin/env python3
"""Holds the tables of docs/FORMAT.md and of docs/SPECIFICATION.md against the specifications, and host/ against these.
Run it at the repository's root:

    python3 tools/format_check.py
    python3 tools/format_check.py --selftest

The second changes, one at a time, each compared cell of docs/FORMAT.md, entries of host/ and of the header, and the
numbers of docs/SPECIFICATION.md's tables, and fails if a change goes unseen. It needs Python 3 and installs nothing.

Compared: kinds of rows (common RowKinds, terms Fields), axes, tests, kinds of nodes (common), the axis order (rules
Order), opposite axes (rules WayBack), the rules form by form (rules RuleTable, read by tools/rule_table.py),
refusals (common Refusals), limits, of docs/SPECIFICATION.md the kinds, the numbers of refusals, their orders (the
definitions of the calls' answers), the limits and the log cases (xpath LogCases), while its rule table is
tools/rule_table.py's, and that host/rules.c, host/terms.c, host/bundle.h, host/document.h and
include/spinebriar.h say the same. Not compared: the pages' sentences, the columns `written` of kinds, `selects`, `its
name`, `when` and `value`, the test order, the tables of selectors and of calls, and rule 59's way back but for its
axes.
"""
import contextlib, io, re, sys

import rule_table

PAGE, NORMATIVE = 'docs/FORMAT.md', 'docs/SPECIFICATION.md'
# texts that stand for those of files
changed = {}
problems = []


def text_of(path):
    return changed[path] if path in changed else open(path, encoding='utf-8').read()


def same(what, page, specification):
    if page == specification:
        print('%s: the same' % what)
        return
    problems.append(what)
    print('%s: DIFFERENT\n  %s\n  %s' % (what, page, specification))


def tables(page, first):
    """The rows of each table of a page whose heading begins with these words."""
    lines = text_of(page).split('\n')
    found = []
    for at in [i for i, line in enumerate(lines) if line.startswith('| %s' % first)]:
        rows = []
        for line in lines[at + 2:]:
            if not line.startswith('|'):
                break
            cells = re.split(r'(?<!\\)\|', line)[1:-1]
            rows.append([cell.strip().replace('\\|', '|') for cell in cells])
        found.append(rows)
    return found


def table(first, page=PAGE):
    """The rows of the page's one table of these words."""
    found = tables(page, first + ' |')
    if len(found) != 1:
        raise SystemExit('%s: %d tables %r' % (page, len(found), first))
    return found[0]


def numbered(crate, file, ending=''):
    """The names of a file of numbers, without their ending and with dashes, with those numbers."""
    found = re.findall(r'^([a-z_]+) = (\d+)$', text_of('crates/%s/specs/%s.antt' % (crate, file)), re.M)
    return [(int(number), re.sub(ending + '$', '', name.replace('_', '-'))) for name, number in found]


def constant(path, name):
    return int(re.search(r'^\W*(?:pub const )?%s(?:: usize)? = (\d+)' % name, text_of(path), re.M).group(1))


def header_number(name):
    """A limit of include/spinebriar.h."""
    return int(re.search(r'\bSPINEBRIAR_MOST_%s = (\d+)' % name, text_of('include/spinebriar.h')).group(1))


def kinds():
    page = table('kind | name | a')
    same('kinds of rows', [(int(row[0]), row[1]) for row in page], numbered('common', 'RowKinds', '-row'))
    fields = text_of('crates/terms/specs/Fields.antt')
    wanted = [[number, name] + (['unused'] * 3 if whole == 'no_fields' else [a, b, c]) for whole, a, b, c, number, name
              in re.findall(r'(no_fields|fields (\w+) (\w+) (\w+))  -- (\d+) (\w+)', fields)]
    same('fields', [row[:5] for row in page], wanted)
    enum = re.search(r'enum \{\s*(VOID_ROW.*?)\}', text_of('host/bundle.h'), re.S).group(1)
    words = [word.strip().lower().replace('_row', '') for word in enum.split(',')]
    same('host/bundle.h: kinds of rows', words, [row[1] for row in page])


def axes_and_tests():
    axes = [(int(row[0]), row[1]) for row in table('axis | name')]
    same('axes', axes, numbered('common', 'Axes'))
    listed = re.search(r'AXES\[\] = \{(.*?)\};', text_of('host/terms.c'), re.S).group(1)
    same('host/terms.c: axes', re.findall(r'"([a-z-]+)"', listed), [name for _, name in axes])
    tests = table('test | name')
    same('tests', [(int(row[0]), row[1]) for row in tests], numbered('common', 'NodeTests', '-test'))
    listed = re.search(r'TESTS\[\] = \{(.*?)\};', text_of('host/terms.c'), re.S).group(1)
    same('host/terms.c: tests', re.findall(r'"(.*?)"', listed)[1:], [row[2].strip('`') for row in tests[1:6]])
    number = dict((name, n) for n, name in axes)
    below = table('axis | is below')
    pairs = [(number[low], number[high.strip()]) for low, highs in below for high in highs.split(',')]
    specs = 'crates/rules/specs'
    below = sorted(pairs + [(n, n) for n, _ in axes])
    same('axis order', below, sorted(rule_table.specification_axes(specs)))
    opposites = [(number[a], number[b]) for a, b in table('axis | opposite')]
    same('opposite axes', opposites, rule_table.specification_axes(specs, 'WayBack', 'opposites'))


def nodes():
    page = [(int(row[0]), row[1]) for row in table('kind | name | its name')]
    same('kinds of nodes', page, numbered('common', 'NodeKinds', '-kind'))
    enum = re.search(r'kinds of nodes\. \*/\nenum \{(.*?)\}', text_of('host/document.h'), re.S).group(1)
    words = [word.strip().lower() for word in enum.split(',')]
    same('host/document.h: kinds of nodes', words, [name for _, name in page])


# the phrases of the page that are side conditions
PHRASES = [(' if a is below b, N below M', ['a_below_b', 'N_below_M']), (', b from 3 to 10,', ['b_from_3_to_10']),
           (" if N is below M, N isn't node() and a isn't 11", ['N_below_M', 'N_not_node', 'a_not_attribute']),
           (' if N is a name or *', ['N_a_name_or_star']), (" if a isn't 11", ['a_not_attribute'])]


def forms_of(rule, text):
    """The forms of a rule's text."""
    conditions = []
    for phrase, names in PHRASES:
        if phrase in text:
            text, conditions = text.replace(phrase, ''), names
    concluded, _, premises = text.partition(' from ')
    premises = [rule_table.claim(x) for x in premises.split(',')] if premises else []
    return [(rule, c, premises, conditions) for c in rule_table.conclusions(concluded)]


def rules():
    page = [(int(row[0]), row[1].replace('`', '')) for row in table('rule | yields')]
    forms = [form for rule, text in page if rule not in (50, rule_table.WAY_BACK_RULE)
             for part in text.split('; ') for form in forms_of(rule, part)]
    same('rules', forms, rule_table.specification('crates/rules/specs'))
    same('rules by number', [rule for rule, _ in page], list(range(1, rule_table.WAY_BACK_RULE + 1)))
    same('rule 50', dict(page)[50], 'withdrawn: it yields nothing')
    same('rule 59', dict(page)[59], "r <= r[some w], w being r's way back")
    listed = re.search(r'RULES\[\] = \{(.*?)\n\};', text_of('host/rules.c'), re.S).group(1)
    entries = re.findall(r'/\* (\d+) \*/ \(?((?:\s*"[^"]*")+)\)?,', listed)
    listed = [(int(number), ''.join(re.findall(r'"([^"]*)"', entry))) for number, entry in entries]
    same('host/rules.c: rules', listed, page)


def refusals():
    names = numbered('common', 'Refusals')
    page = [(int(row[0]), row[1].replace(' ', '-')) for row in table('number | name | when')]
    same('refusals', page, names)
    listed = re.search(r'enum spinebriar_answer \{(.*?)\};', text_of('include/spinebriar.h'), re.S).group(1)
    header = re.findall(r'SPINEBRIAR_([A-Z_]+) = (\d+)', listed)
    same('include/spinebriar.h: refusals', [(int(n), name.lower().replace('_', '-')) for name, n in header[1:]], names)
    texts = re.findall(r'case SPINEBRIAR_([A-Z_]+): return "[^"]+";', text_of('include/spinebriar.h'))
    same('include/spinebriar.h: texts', sorted(texts), sorted(name for name, _ in header))


def limits():
    places = [('terms/specs/Row.antt', 'max_rows'), ('calls/specs/Book.antt', 'max_steps'),
              ('terms/specs/Nesting.antt', 'max_nesting'), ('xpath/specs/Document.antt', 'max_nodes'),
              ('common/src/lib.rt', 'MAX_BYTES'), ('common/specs/Limits.antt', 'max_number'),
              ('rules/specs/Yields.antt', 'way_back_rule')]
    specified = [constant('crates/' + path, name) for path, name in places]
    same('limits', [int(row[1]) for row in table('what | most')], specified)
    header = [header_number(name) for name in ('ROWS', 'STEPS', 'NODES', 'BYTES', 'NUMBER', 'RULE')]
    same('include/spinebriar.h: limits', header, [specified[i] for i in (0, 1, 3, 4, 5, 6)])


# the limits of docs/SPECIFICATION.md, in its order: the row of a table, and the constant of the specifications
LIMITS = [('rows held', 'terms/specs/Row', 'max_rows'), ('nesting of a row', 'terms/specs/Nesting', 'max_nesting'),
          ('rows', 'xpath/specs/Document', 'max_nodes'), ('steps held', 'calls/specs/Book', 'max_steps'),
          ('levels of an expression', 'selector_grammar/specs/Grammar', 'max_levels'),
          ('number of a name', 'common/specs/Limits', 'max_number'), ('points held', 'calls/specs/Book', 'max_points'),
          ('name of a point', 'common/specs/Limits', 'max_number'),
          ('records held', 'records/specs/Records', 'max_records'),
          ('old rows', 'replacement/specs/ReplaceCall', 'max_list'),
          ('new rows', 'replacement/specs/ReplaceCall', 'max_list'),
          ('rows', 'documents/specs/Documents', 'most_rows'),
          ('file names', 'tallies/specs/NameList', 'max_files'),
          ('bytes of a file', 'common/specs/Limits', 'max_bytes'),
          ('bytes', 'common/specs/Limits', 'max_bytes')]


# where a call's refusals are tried in turn: the call, the file, the definition
ORDERS = [('term', 'calls/specs/TermCall', 'term_answer'), ('step', 'calls/specs/StepCall', 'step_answer_by'),
          ('text', 'selector_grammar/specs/Answer', 'data Answers'), ('select', 'calls/specs/SelectCall', 'select_answer'),
          ('write', 'session/specs/WriteCall', 'write_answer'), ('point', 'calls/specs/PointCall', 'point_answer'),
          ('return', 'calls/specs/PointCall', 'return_answer'), ('record', 'records/specs/Records', 'record_answer'),
          ('release', 'records/specs/Releases', 'release_answer'),
          ('replace', 'replacement/specs/ReplaceCall', 'replace_answer'),
          ('order', 'term_order/specs/OrderCall', 'order_answer'),
          ('way-back', 'reversing/specs/private/RowsBack', 'row_reply')]


# refusals whose definitions have no order: of a line, of a list of files, and of a return that a register bars
OTHER_REFUSALS = [(10, 'read'), (17, 'program tally'), (24, 'return')]


def order_of(file, definition):
    """The numbers of the refusals of a definition, in the order in which it has them."""
    numbers = {name.replace('-', '_'): n for n, name in numbered('common', 'Refusals')}
    body = text_of('crates/%s.antt' % file).split('pub %s ' % definition, 1)[1].split('\n\n')[0]
    found = [numbers[word] for word in re.findall(r'\w+', body) if word in numbers]
    # what a document is refused with stands last: it is the case of an Option that has a value
    return sorted(dict.fromkeys(found), key=lambda n: n != 8)


def log_case(text):
    """A path of LogCases.antt as the page writes it."""
    text = re.sub(r'\((\w+) :: (\w+)\)', r'\1::\2', text)
    text = re.sub(r'\((\w+) ::node\)', r'\1::node()', text)
    text = re.sub(r'\(some_of (\S+?)\)', r'[some \1]', text).replace('Root', 'R')
    text = re.sub(r'\(Composition (\S+) (\S+)\)', r'\1/\2', text)
    return re.sub(r'\(Filter (\S+) (\[.*\])\)', r'\1\2', text).replace('_', '-')


def log_cases():
    text = text_of('crates/xpath/specs/values/LogCases.antt').split('AllRight\n')[1].split('unfolding')[0]
    cases = []
    for path, node, found in re.findall(r'nodes log_document (\S+|\(.*\)) (\d+) is (.*)', text):
        listed = re.findall(r'\d+', found)
        cases.append([log_case(path), node, ', '.join(listed) or 'none', ''])
    for path, node, count in re.findall(r'visits log_document (\(.*\)) (\d+) ∷ \[\]\) is \((\d+)', text):
        for case in cases:
            if case[:2] == [log_case(path), node]:
                case[3] = count
    return cases


def normative():
    orders = [(row[0], [int(n) for n in row[1].split(', ')]) for row in table('call | order', NORMATIVE)]
    wanted = [(call, order_of(file, definition)) for call, file, definition in ORDERS]
    # a register bars a return that its session would accept
    wanted += [('return, on a register', dict(wanted)['return'] + [24])]
    same(NORMATIVE + ': orders of refusals', sorted(orders), sorted(wanted))
    cases = [[row[0].strip('`')] + row[1:] for row in table('selector | from', NORMATIVE)]
    same(NORMATIVE + ': log cases', cases, log_cases())
    rows = table('kind | sort', NORMATIVE)
    wanted = re.findall(r'(no_fields|fields (\w+) (\w+) (\w+))  -- (\d+) \w+',
                        text_of('crates/terms/specs/Fields.antt'))
    same(NORMATIVE + ': fields', [[row[0]] + [cell or 'unused' for cell in row[3:6]] for row in rows],
         [[number] + (['unused'] * 3 if whole == 'no_fields' else [a, b, c]) for whole, a, b, c, number in wanted])
    last_path = constant('crates/common/specs/RowKinds.antt', 'filter_row')
    same(NORMATIVE + ': sorts', [row[1] == 'path' for row in rows], [int(row[0]) <= last_path for row in rows])
    same(NORMATIVE + ': kinds of nodes', [(int(row[0]), row[1].split()[-1]) for row in table('kind | node', NORMATIVE)],
         numbered('common', 'NodeKinds', '-kind'))
    rows = [row for rows in tables(NORMATIVE, 'number | call') for row in rows]
    pairs = [(int(row[0]), call) for row in rows for call in row[1].replace(', on a register', '').split(', ')]
    same(NORMATIVE + ': refusals', sorted(pairs), sorted(
        [(n, call) for call, file, definition in ORDERS for n in order_of(file, definition)] + OTHER_REFUSALS))
    limits = [(row[0], int(row[-1])) for rows in tables(NORMATIVE, 'limit') for row in rows]
    specified = [(what, constant('crates/%s.antt' % path, name)) for what, path, name in LIMITS]
    same(NORMATIVE + ': limits', limits, specified)


# the headings of the page's tables that are compared
COMPARED = ['kind | sort', 'kind | node', 'number | call', 'call | order', 'limit', 'selector | from']


# The page's tables by the words that their headings begin with, and the columns that are compared.
TABLES = [('kind | name | a', (0, 1, 2, 3, 4)), ('axis | name', (0, 1)), ('test | name', (0, 1)),
          ('kind | name | its name', (0, 1)), ('rule | yields', (0, 1)), ('axis | is below', (0, 1)),
          ('axis | opposite', (0, 1)), ('number | name | when', (0, 1)), ('what | most', (1,))]
# An entry of each list of host/ and of the header, and a wrong one.
ENTRIES = [('host/bundle.h', 'UNION_ROW,', 'NOT_ROW,'), ('host/terms.c', '"parent", ', ''),
           ('host/terms.c', '"text()"', '"node()"'), ('host/document.h', 'TEXT,', 'COMMENT,'),
           ('host/rules.c', '"p/R <= R"', '"R <= p/R"'),
           ('include/spinebriar.h', 'SPINEBRIAR_BAD_SIDE = 5', 'SPINEBRIAR_BAD_SIDE = 6'),
           ('include/spinebriar.h', 'case SPINEBRIAR_BAD_SIDE: return', 'case SPINEBRIAR_BAD_KIND: return'),
           ('include/spinebriar.h', 'SPINEBRIAR_MOST_ROWS = 1024', 'SPINEBRIAR_MOST_ROWS = 1023')]
NEXT = dict(zip('pqrsfghabNM', 'qrspghfbaMN'))


def wrong_cell(cell):
    """Another number, a claim with another letter, or another word."""
    if cell.isdigit():
        return str(int(cell) + 1)
    letter = re.search(r'\b[pqrsfghabNM]\b', cell)
    return cell[:letter.start()] + NEXT[letter.group()] + cell[letter.end():] if letter else cell + 'x'


def wrong_cells():
    """docs/FORMAT.md with one compared cell changed, and what was changed."""
    lines = text_of(PAGE).split('\n')
    for first, columns in TABLES:
        at = next(i for i, line in enumerate(lines) if line.startswith('| %s |' % first)) + 2
        while lines[at].startswith('|'):
            cells = re.split(r'(?<!\\)\|', lines[at])
            for column in columns:
                wrong = list(cells)
                wrong[column + 1] = ' %s ' % wrong_cell(cells[column + 1].strip())
                changed_line = '|'.join(wrong)
                yield PAGE, '\n'.join(lines[:at] + [changed_line] + lines[at + 1:]), changed_line
            at += 1


def wrong_numbers():
    """docs/SPECIFICATION.md with another number in a row that is compared, and what was changed."""
    text = text_of(NORMATIVE)
    lines, within = text.split('\n'), False
    for i, line in enumerate(lines):
        if not line.startswith('|'):
            within = False
        elif lines[i + 1].startswith('|---'):
            within = re.match(r'\| (%s)' % '|'.join(map(re.escape, COMPARED)), line)
        elif within and not line.startswith('|---'):
            last = line.index(' |', 3) if within.group(1) in COMPARED[1:3] else len(line)
            for match in re.finditer(r'\b\d+\b', line[:last]):
                if within.group(1) == 'limit' and '| ' in line[match.end() + 1:]:
                    continue
                wrong = line[:match.start()] + str(int(match.group()) + 1) + line[match.end():]
                yield NORMATIVE, text.replace(line, wrong), '%s in %s' % (match.group(), line)


def wrong_entries():
    for path, right, wrong in ENTRIES:
        assert right in text_of(path), (path, right)
        yield path, text_of(path).replace(right, wrong, 1), wrong


PARTS = kinds, axes_and_tests, nodes, rules, refusals, limits, normative


def is_found(path, text):
    """Whether a wrong text of the file is found: a comparison differs, or the file can't be read."""
    changed[path] = text
    problems.clear()
    try:
        with contextlib.redirect_stdout(io.StringIO()):
            for part in PARTS:
                part()
    except (rule_table.Wrong, KeyError, IndexError, ValueError, AttributeError, SystemExit):
        return True
    finally:
        del changed[path]
    return problems != []


def selftest():
    if any(is_found(path, text_of(path)) for path in (PAGE, NORMATIVE)):
        sys.exit('the pages are wrong as they stand')
    tried, unseen = 0, []
    for path, text, what in [*wrong_cells(), *wrong_entries(), *wrong_numbers()]:
        tried += 1
        unseen += [] if is_found(path, text) else ['%s: %s' % (path, what)]
    print('%d changes, %d seen' % (tried, tried - len(unseen)), *unseen, sep='\n  ')
    sys.exit(1 if unseen else 0)


def main():
    if sys.argv[1:] == ['--selftest']:
        selftest()
    if len(sys.argv) != 1:
        raise SystemExit(__doc__)
    for part in PARTS:
        part()
    sys.exit(1 if problems else 0)


if __name__ == '__main__':
    main()
