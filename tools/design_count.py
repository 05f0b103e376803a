#!/usr/bin/env python3
"""design_count.py [FOLDER] [all]: counts the places that docs/DESIGN-PASS.md speaks of in the code of a checkout; `all` names each."""
import collections
import pathlib
import re
import sys

root = pathlib.Path(sys.argv[1] if len(sys.argv) > 1 else '.') / 'crates'
head = re.compile(r'(?:pub )?(?:extern "C" )?fn (\w+)(<[^>]*>)?\(([^)]*)\)(?: -> ([^\n{]+?))?\s*\n((?:(?:\s+(?:requires|ensures|→|≡|\().*|        .*)\n)*)\s*\{', re.M)
found = collections.defaultdict(list)
for path in sorted(root.glob('*/src/**/*.rt')):
    text, name = path.read_text(), str(path.relative_to(root))
    for m in re.finditer(r'^(?:pub )?enum (\w+)[^{]*\{([^}]*)\}', text, re.M):
        found['1 enums'].append(f'{name} {m.group(1)}')
    for m in re.finditer(r'^pub struct (\w+)[^{;]*\{([^}]*)\}', text, re.M):
        if ': bool' in m.group(2):
            found['1 structs with a flag'].append(f'{name} {m.group(1)}')
    for m in head.finditer(text):
        function, _, _, result, clauses = m.groups()
        result, ensured = (result or '').strip(), re.findall(r'ensures.*', clauses or '')
        if name.startswith('service'):
            continue
        if result == 'usize' and any('.code' in e for e in ensured):
            found['1 functions that answer a code as a number'].append(f'{name} {function}')
        if result.endswith('Answer'):
            found['1 functions that answer a struct with a code or a rule'].append(f'{name} {function}')
        if result == 'usize' and any('FirstWrong' in e for e in ensured):
            found['1 functions whose end of a range means none'].append(f'{name} {function}')
    for number, line in enumerate(text.splitlines(), 1):
        place = f'{name}:{number} {line.strip()}'
        if re.search(r'if (img\.len\(\) <= (consistency::)?FEW_BYTES|(view\.)?g\.blocks <= UNMAPPED_BLOCKS)', line):
            found['2 choices of the size of a lent array'].append(place)
        if re.match(r'\s*(while|loop)\b', line):
            found['3 while and loop'].append(place)
        if re.match(r'\s*for ', line):
            found['3 for'].append(place)
        if re.search(r'requires.*Sized \w+\.now g', line):
            found['5 Sized of an image that is read'].append(place)
        if re.search(r'requires.*Sized \w+\.old g', line):
            found['5 Sized of an image that changes'].append(place)
        if re.search(r'requires.*Standing ', line):
            found['5 Standing'].append(place)
        if 'opened ≡ opened_of' in line:
            found['5 opened'].append(place)
for key in sorted(found):
    print(f'{len(found[key]):4} {key}')
    if sys.argv[2:] == ['all']:
        for place in found[key]:
            print('       ' + place)
