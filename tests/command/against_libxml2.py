#!/usr/bin/env python3
"""Holds `spinebriar rows` against libxml2 on COUNT random XML files:

    tests/command/against_libxml2.py SPINEBRIAR ROWS_BY_LIBXML2 COUNT

Files have elements, attributes, defaults of them from the DTD, texts in pieces, CDATA, character and entity
references, comments, instructions, and comments and instructions in the DTD; no namespaces.

run.sh makes what it needs; it installs nothing.
"""
import os, random, subprocess, sys, tempfile

sys.path.insert(0, 'tools/compare')
from shared import XmlText  # noqa: E402

NAMES = ['log', 'mark', 'zero', 'run', 'serial', 'plot', 'a.b', '_c-d']
REFERENCES = ['&amp;', '&#10;', '&#x41;', '&text;', '&nodes;', '&none;']
VALUES = ['', '7', '&lt;', '&text;']
SECTIONS = ['', 'a<b', ' ', ']]']


DTD = '''<!DOCTYPE log [<!-- no --><?run no?>
<!ENTITY text "t&#38;amp;t"><!ENTITY none ""><!ENTITY nodes "u<mark serial='1'>v</mark><!--w-->">
<!ATTLIST zero plot CDATA "p" serial CDATA #IMPLIED>]>'''


def main():
    spinebriar, other, count, chance = sys.argv[1], sys.argv[2], int(sys.argv[3]), random.Random(29)
    nodes, made = 0, XmlText(chance, NAMES, NAMES, NAMES, REFERENCES, VALUES, SECTIONS)
    with tempfile.TemporaryDirectory() as folder:
        path, names = os.path.join(folder, 'file.xml'), os.path.join(folder, 'names')
        open(names, 'w').write('\n'.join(NAMES))
        for _ in range(count):
            text = made.file(DTD)
            open(path, 'w').write(text)
            wanted = [row.split(' ') for row in subprocess.check_output([other, path]).decode().split('\n')[:-1]]
            number = lambda name: 0 if name == '-' else NAMES.index(name) + 1
            wanted = ['%s %s %d' % (kind, parent, number(name)) for kind, parent, name in wanted]
            command = [spinebriar, 'rows', path, '--names', names]
            done = subprocess.run(command, stdout=subprocess.PIPE, stderr=subprocess.PIPE)
            rows = done.stdout.decode().split('\n')[:-1]
            many = len(wanted) > 512 and done.returncode == 1 and b': %d nodes' % len(wanted) in done.stderr
            if not many and (done.returncode != 0 or rows != wanted):
                raise SystemExit('FAILED: against_libxml2.py: %s\n%s\n%s' % (text, rows, wanted))
            nodes += len(wanted)
    print('%d XML files, %d nodes, compared with libxml2' % (count, nodes))


main()
