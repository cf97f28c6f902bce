#!/usr/bin/env python3
"""Counts, in crates/*/src, the places that docs/DESIGN-PASS.md speaks of, point by point.

    python3 tools/places.py [--list] [TREE]

Without --list it prints a line a point, with it each place too. A place that its line says is kept (`// Kept: ...` on it or just above) is counted
beside the others."""
import collections
import glob
import os
import re
import sys

LIST = '--list' in sys.argv
ROOTS = [a for a in sys.argv[1:] if not a.startswith('--')] or ['.']
CODES = r'(code|kind|wrong|refusal|phase|why|wanted)'
SENTINEL = re.compile(r',? or (`?(used|to|count|n|count|2\^r)`?( if none does)?|the number of cells)[.,;]| if none does|, or 0\b|[0-9] where (it|that) (cannot|is beyond)')
HAND = set('same same_number is_zero wide signed bits min max less few lesser greater larger smaller gap clamp magnitude non_neg '
           'copy keep fill clear clear_rims write read number listed mark byte_at put_number put_byte put_word put_double doubled '
           'closed fails quiet stop goes stops reported refused practice all_distinct same_row told positive block_end divided '
           'at_most_zero below_zero size beyond'.split())


def crates(root):
    names = []
    for line in open(os.path.join(root, 'crates.txt')):
        line = line.split('#')[0].strip()
        if line:
            names.append(line.split(':')[0].split()[0])
    return names


class Place:
    def __init__(self, path, line, text, kept):
        self.path, self.line, self.text, self.kept = path, line, text, kept


def strip_clauses(src):
    """The source with its clauses and ghost lines blanked, so that only what runs is left. Lines keep their numbers."""
    out = []
    i = 0
    for m in re.finditer(r'^[ \t]*(requires|ensures)\b[^{\n]*\{', src, re.M):
        if m.start() < i:
            continue
        out.append(src[i:m.start()])
        depth, j = 1, m.end()
        while depth and j < len(src):
            depth += {'{': 1, '}': -1}.get(src[j], 0)
            j += 1
        out.append('\n' * src.count('\n', m.start(), j))
        i = j
    out.append(src[i:])
    text = ''.join(out)
    return re.sub(r'^ghost use .*$', '', text, flags=re.M)


def clauses(src, word):
    for m in re.finditer(r'^[ \t]*%s\b[^{\n]*\{' % word, src, re.M):
        depth, j = 1, m.end()
        while depth and j < len(src):
            depth += {'{': 1, '}': -1}.get(src[j], 0)
            j += 1
        yield src[m.end():j - 1]


FN = re.compile(r'^[ \t]*(pub )?(const )?fn (\w+)(<[^(]*>)?\(', re.M)


def functions(text):
    for m in FN.finditer(text):
        depth, j = 1, m.end()
        while depth:
            depth += {'(': 1, ')': -1}.get(text[j], 0)
            j += 1
        params = text[m.end():j - 1]
        k = text.index('{', j)
        ret = text[j:k].strip()
        depth, e = 1, k + 1
        while depth:
            depth += {'{': 1, '}': -1}.get(text[e], 0)
            e += 1
        yield m.group(3), m.start(), params, ret, text[k:e], k


def split_params(params):
    parts, depth, cur = [], 0, ''
    for ch in params:
        depth += {'<': 1, '[': 1, '(': 1, '>': -1, ']': -1, ')': -1}.get(ch, 0)
        if ch == ',' and depth == 0:
            parts.append(cur)
            cur = ''
        else:
            cur += ch
    parts.append(cur)
    return [re.sub(r'\s+', ' ', p).strip() for p in parts if p.strip()]


def main():
    root = ROOTS[0]
    found = collections.OrderedDict((k, []) for k in [
        '1 own enums', '1 flag with a value beside it', '1 number for a kind or a refusal', '1 sentinel for none',
        '2 names in several crates', '3 while loops', '3 for loops that index', '3 other for loops', '4 by hand, by name',
        '4 copies of three fields or more', '5 facts in requires of three functions or more', '5 parameters that travel together',
        '6 buffers with a length beside', '6 arrays handed over by value', '7 tests of a kind'])
    names = collections.defaultdict(set)
    facts = collections.Counter()
    groups = collections.Counter()
    for crate in crates(root):
        for path in sorted(glob.glob(os.path.join(root, 'crates', crate, 'src', '*.rt'))):
            src = open(path).read()
            text = strip_clauses(src)
            lines = text.split('\n')
            rel = os.path.relpath(path, root)

            def add(key, pos, what, line=None):
                n = line if line is not None else text.count('\n', 0, pos)
                near = lines[max(0, n - 3):n + 1]
                found[key].append(Place(rel, n + 1, what, any('Kept:' in x for x in near)))

            for m in re.finditer(r'^(pub )?enum (\w+)', text, re.M):
                add('1 own enums', m.start(), m.group(2))
            for m in re.finditer(r'^(?:pub )?struct (\w+)[^{;]*\{(.*?)^\}', text, re.M | re.S):
                fields = re.findall(r'^\s*(?:pub )?(\w+): ([^\n]+),$', m.group(2), re.M)
                bools = [f for f, t in fields if t == 'bool']
                if bools and len(fields) > 1:
                    add('1 flag with a value beside it', m.start(), m.group(1) + ': ' + ' '.join(bools))
                arrays = [f for f, t in fields if t.startswith('[')]
                if arrays and (any(f in ('count', 'len', 'n') for f, t in fields) or len(arrays) > 1):
                    add('6 buffers with a length beside', m.start(), m.group(1))
                for f, t in fields:
                    if re.fullmatch(CODES, f) and re.fullmatch(r'u(8|32|64)', t):
                        add('1 number for a kind or a refusal', m.start(), m.group(1) + '.' + f)
            for m in re.finditer(r'^(?:pub )?const (\w+): u32', text, re.M):
                add('1 number for a kind or a refusal', m.start(), 'const ' + m.group(1))
            for name, pos, params, ret, body, bpos in functions(text):
                ps = split_params(params)
                if name not in ('main', 'new', 'from', 'fmt', 'default'):
                    names[name].add(crate)
                for p in ps:
                    if re.match(CODES + r': u(8|32|64)$', p):
                        add('1 number for a kind or a refusal', pos, name + '(' + p + ')')
                    if re.search(r': \[', p):
                        add('6 arrays handed over by value', pos, name + '(' + p + ')')
                if re.search(r'(refusal|refused|_write|_sheet|^say)', name) and re.search(r'-> u(32|64)$', ret):
                    add('1 number for a kind or a refusal', pos, name + ' ' + ret)
                before = text[:pos].rstrip('\n').split('\n')
                comment = []
                while before and before[-1].strip().startswith('//'):
                    comment.insert(0, before.pop().strip()[2:])
                if re.search(r'-> (usize|u32|u64)$', ret) and SENTINEL.search(' '.join(comment)):
                    add('1 sentinel for none', pos, name + ' ' + ret)
                for m in re.finditer(r"^[ \t]*(?:'\w+: )?(while|for) ([^\n]*)\{", body, re.M):
                    at = bpos + m.start()
                    if m.group(1) == 'while':
                        add('3 while loops', at, name)
                        continue
                    v = re.match(r'(\w+) in (.+)\.\.', m.group(2))
                    loop = body[m.end():]
                    if v and re.search(r'\[[^\]\n]*\b%s\b[^\]\n]*\]' % v.group(1), loop):
                        add('3 for loops that index', at, name)
                    else:
                        add('3 other for loops', at, name)
                if name in HAND:
                    add('4 by hand, by name', pos, name)
                for m in re.finditer(r'\b[A-Z]\w* \{([^{}]*)\}', body):
                    copied = collections.Counter(s for f, s, g in re.findall(r'(\w+): (\w+)\.(\w+),', m.group(1)) if f == g)
                    if copied and max(copied.values()) >= 3:
                        add('4 copies of three fields or more', bpos + m.start(), name)
                for m in re.finditer(r'if (\w+\.)?(kind|number % 2|block % 2|s\.block % 2) ?==', body):
                    add('7 tests of a kind', bpos + m.start(), name)
                key = [p for p in ps if not p.startswith(('self', '&self', '&mut self'))]
                for a in range(len(key)):
                    for b in range(a + 3, len(key) + 1):
                        groups[', '.join(key[a:b])] += 1
            for c in clauses(src, 'requires'):
                for p in set(re.findall(r'\b((?:\w+\.)?[A-Z]\w+)\b(?=[ (])', c)):
                    facts[p] += 1
    for n, cs in sorted(names.items()):
        if len(cs) > 1:
            found['2 names in several crates'].append(Place('', 0, n + ': ' + ' '.join(sorted(cs)), False))
    for p, n in facts.most_common():
        if n >= 3:
            found['5 facts in requires of three functions or more'].append(Place('', 0, '%s %d' % (p, n), False))
    top = {g: n for g, n in groups.items() if n >= 3}
    for g, n in sorted(top.items(), key=lambda x: -x[1]):
        if not any(g != h and g in h and m >= n for h, m in top.items()):
            found['5 parameters that travel together'].append(Place('', 0, '%d: %s' % (n, g), False))
    for key, places in found.items():
        kept = sum(p.kept for p in places)
        print('%-50s %4d%s' % (key, len(places), ', %d of them kept' % kept if kept else ''))
        if LIST:
            for p in places:
                print('    %s%s%s' % ('%s:%d ' % (p.path, p.line) if p.path else '', p.text, ' (kept)' if p.kept else ''))


main()
