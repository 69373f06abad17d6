#!/usr/bin/env python3
"""Lists the places of src/ that are written in an older form, by rules on the text.

    python3 tools/count_forms.py [TOP]        the counts of each point
    python3 tools/count_forms.py [TOP] -v     and every place

TOP is the top of a checkout, this one by default. The rules are coarse on purpose: what they list is looked at by eye, and
docs/DESIGN-PASS.md says of each place what became of it. Tables of cases are not looked into.
"""
import difflib
import glob
import os
import re
import sys

ARGS = [a for a in sys.argv[1:] if not a.startswith('-')]
TOP = ARGS[0] if ARGS else os.path.join(os.path.dirname(os.path.abspath(__file__)), '..')
VERBOSE = '-v' in sys.argv

INT = r'(?:u8|u16|u32|u64|usize|i32)'


def sources():
    for path in sorted(glob.glob(os.path.join(TOP, 'crates/*/src/**/*.rt'), recursive=True)):
        yield os.path.relpath(path, TOP), open(path, encoding='utf-8').read()


def without_comments(text):
    return re.sub(r'//[^\n]*', '', text)


def functions(text):
    """(name, line, head, clauses, body) of each function that has a body."""
    found = []
    for m in re.finditer(r'(?m)^[ \t]*(?:pub(?:\([a-z]+\))? )?fn (\w+)', text):
        rest = text[m.start():]
        brace = re.search(r'(?m)(?:^[ \t]*|[ ])\{[ \t]*$|\{\}$', rest)
        end = rest.find(';')
        if not brace or (end >= 0 and end < brace.start() and '\n' not in rest[:end].split(')')[-1]):
            continue
        start = brace.start() + rest[brace.start():].find('{')
        depth, at = 0, start
        while at < len(rest):
            if rest[at] == '{':
                depth += 1
            elif rest[at] == '}':
                depth -= 1
                if depth == 0:
                    break
            at += 1
        head = rest[:start]
        found.append((m.group(1), text.count('\n', 0, m.start()) + 1, head, rest[start + 1:at]))
    return found


def parameters(head):
    inside = re.search(r'fn \w+(?:<[^{]*?>)?\((.*?)\)\s*(?:->|requires|ensures|$|\n)', head, re.S)
    if not inside:
        return []
    return [re.sub(r'\s+', ' ', p).strip() for p in re.split(r',(?![^<\[(]*[>\])])', inside.group(1)) if ':' in p]


def clauses(head):
    out = []
    for m in re.finditer(r'(?m)^\s*(requires|ensures)\s+(?:\w+\s+)?\{(.*)\}\s*;?\s*$', head):
        out.append((m.group(1), re.sub(r'\s+', ' ', m.group(2)).strip()))
    return out


TOKEN = re.compile(r"b?'(?:\\.|[^'])'|b?\"(?:\\.|[^\"])*\"|\w+|[^\s\w]")


def shape(body):
    """The body's tokens, with names and literals replaced by the order in which they come."""
    names, out = {}, []
    for t in TOKEN.findall(without_comments(body)):
        if re.match(r'(?:let|mut|if|else|match|for|in|while|return|as|self|Ok|Err|Some|None|true|false)$', t) or not re.match(r'[\w\'"]', t):
            out.append(t)
        else:
            out.append(names.setdefault(t, 'n%d' % len(names)))
    return out


def point_1(path, text):
    for m in re.finditer(r'(?m)^\s*(?:pub )?enum (\w+) \{(.*?)^\s*\}', text, re.S):
        if re.search(r'\b(?:Refused|Bad|Nothing|Missing|Nil)\b', m.group(2)) and 'impl From' not in text:
            yield m.start(), 'enum ' + m.group(1)
    for m in re.finditer(r'\b(\w+)\s*:\s*(?:&mut )?bool\b', text):
        yield m.start(), m.group(1) + ': bool'
    for m in re.finditer(r'\b(kind|number|refusal)\s*:\s*(?:Option<)?' + INT, text):
        yield m.start(), m.group(0)
    for m in re.finditer(r'const (?:BUFFER|NOT|AND|OR|XOR|NAND|NOR|XNOR|TRI|PULL_UP|PULL_DOWN): u8', text):
        yield m.start(), m.group(0)
    for m in re.finditer(r'fn (\w*refusal\w*|\w*fault)\([^)]*\)\s*->\s*Option<\w+>', text):
        yield m.start(), 'fn ' + m.group(1)


def said_none(path, raw):
    for m in re.finditer(r'//[^\n]*(?:or 1,024|or 0 where|or 0 past|, 0 where there|stands for a file that is accepted|0 behind)[^\n]*', raw):
        yield m.start(), m.group(0)


def point_3(path, text):
    for m in re.finditer(r'while (?!let)([^{\n]*)', text):
        yield m.start(), 'while ' + m.group(1).strip()
    for m in re.finditer(r'for (\w+) in ([^{\n]*\.\.[^{\n]*)\{', text):
        depth, at = 1, m.end()
        while depth and at < len(text):
            depth += {'{': 1, '}': -1}.get(text[at], 0)
            at += 1
        body = text[m.end():at]
        name = m.group(1)
        if name != '_' and ('.len()' in m.group(2) or re.search(r'\[[^\]\n]*\b%s\b' % name, body)):
            yield m.start(), 'for %s in %s' % (name, m.group(2).strip())
    for m in re.finditer(r'(?<![.\w])(\w+) (?:\+= 1|= \1\.(?:saturating|wrapping)_add\(1\))', text):
        yield m.start(), m.group(0)
    for name, line, head, body in functions(text):
        m = re.search(r'for \w+ in [^{]*\{\s*if [^{]*\{\s*return', body)
        if m:
            yield text.find(body) + m.start(), 'search by for in ' + name


def point_4(path, text):
    for m in re.finditer(r'None => (?:None|false|0|Ok\(\(\)\)|Err\([^{\n]*\)|\w+\([^{\n]*\)),?\s*(?:Some|\})|Some\(\w+\) => [^\n]*\n\s*None => [^\n]*|Ok\(\w+\) => Ok\(\w+\)', text):
        yield m.start(), re.sub(r'\s+', ' ', m.group(0))[:60]
    for m in re.finditer(r'[^\n]*(?:\* 256 \+|/ 256 % 256|\* 65536 \+)[^\n]*', text):
        yield m.start(), m.group(0).strip()[:60]
    # the interface of families asks for code, of_code and of_name
    if not re.match(r'crates/(?:logic|nine_values|pull_ranges)/', path):
        for m in re.finditer(r'fn (name|of_name|of_names|code|code_of|letter_of|earlier|lesser|narrow|no_tally|be16|number16|number32|word|at_line|taken|judged)\b', text):
            yield m.start(), m.group(0)
    for m in re.finditer(r'Entry \{\s*tick: 0,', text):
        yield m.start(), 'Entry { tick: 0, .. }'


def point_6(path, text):
    for m in re.finditer(r'(?m)^\s*(?:pub )?struct (\w+)(?:<[^{]*>)? \{(.*?)^\}', text, re.S):
        for f in re.finditer(r'(?m)^\s*(?:pub )?(\w+): (\[[^\]]*\]|&\'a mut \[[^\]]*\])', m.group(2)):
            yield m.start(2) + f.start(1), '%s.%s: %s' % (m.group(1), f.group(1), f.group(2))
    for m in re.finditer(r'let mut \w+ = \[[^\]]*; \d{3,}\w*\]', text):
        yield m.start(), m.group(0)
    for m in re.finditer(r'\bout: &mut \[u8\],\s*at: usize', text):
        yield m.start(), 'out, at'


def point_7(path, text):
    for name, line, head, body in functions(text):
        arms = re.findall(r'(?m)=> (.*)$', body)
        calls = [a for a in arms if re.match(r'(?:\w+(?:::(?:<[^>]*>)?)?)+\w*\(', a)]
        switch = re.search(r'match (?:self|\w+) \{', body)
        if switch and len(arms) >= 3 and len(calls) >= len(arms) - 1 and not re.match(r'(?:Some|Ok|Err)\(', calls[0]):
            yield text.find(body), 'match of calls in ' + name
        for m in re.finditer(r'if (?!let)(\w+) \{\s*(?:return )?(\w+)(?:::<[^>]*>)?\([^;{]*\);?\s*\}(?: else \{)?\s*(\w+)(?:::<[^>]*>)?\(', body):
            yield text.find(body) + m.start(), 'if %s { %s(..) } else { %s(..) } in %s' % (m.group(1), m.group(2), m.group(3), name)


def repeated(kind):
    """Point 5: clauses, or groups of parameters, that stand in three functions or more of one crate."""
    per_crate = {}
    for path, raw in sources():
        crate = path.split('/')[1]
        for name, line, head, body in functions(without_comments(raw)):
            where = '%s:%d %s' % (path, line, name)
            if kind == 'clauses':
                for word, clause in clauses(head):
                    plain = re.sub(r'\b(self|\w+)\.(old|now|new)\b', r'\1', clause)
                    per_crate.setdefault((crate, plain), set()).add(where)
            else:
                ps = [p for p in parameters(head) if not re.match(r'(?:&|&mut )?self', p)]
                names = [re.sub(r'^mut ', '', p) for p in ps]
                for i in range(len(names)):
                    for j in range(i + 1, len(names)):
                        for k in range(j + 1, len(names)):
                            per_crate.setdefault((crate, ', '.join((names[i], names[j], names[k]))), set()).add(where)
    return {key: sorted(w) for key, w in per_crate.items() if len(w) >= 3}


def twins():
    """Point 2: pairs of functions whose bodies have one shape, and types declared twice with the same fields."""
    all_functions = []
    for path, raw in sources():
        for name, line, head, body in functions(without_comments(raw)):
            s = shape(body)
            if len(s) >= 24:
                all_functions.append((path, line, name, s))
    for i, a in enumerate(all_functions):
        for b in all_functions[i + 1:]:
            if min(len(a[3]), len(b[3])) / max(len(a[3]), len(b[3])) < 0.8:
                continue
            m = difflib.SequenceMatcher(None, a[3], b[3], autojunk=False)
            if m.real_quick_ratio() < 0.9 or m.quick_ratio() < 0.9:
                continue
            ratio = m.ratio()
            if ratio >= 0.9 and (a[2] == b[2] or ratio >= 0.93):
                yield '%s:%d %s  ~  %s:%d %s' % (a[0], a[1], a[2], b[0], b[1], b[2])


def answers():
    count = lemmas = 0
    for path in glob.glob(os.path.join(TOP, 'crates/*/proofs/**/*.antt'), recursive=True):
        text = open(path, encoding='utf-8').read()
        if path.endswith('Answers.antt') or path.endswith('Invariants.antt') or path.endswith('Proof.antt'):
            count += len(re.findall(r'(?m)^pub \S+ :', text))
        else:
            lemmas += len(re.findall(r'(?m)^(?:abbrev |record |pub )*[\w◌\-≤<+*]+ :', text))
    return count, lemmas


def show(point, title, places):
    places = list(places)
    print('%s %s: %d' % (point, title, len(places)))
    if VERBOSE:
        for p in places:
            print('    ' + p)
    return len(places)


def by_rule(rule, raw_text=False):
    for path, raw in sources():
        if path.endswith('netlist_cases/src/table.rt'):
            continue
        text = raw if raw_text else re.sub(r'//[^\n]*', lambda m: ' ' * len(m.group(0)), raw)
        for at, what in sorted(set(rule(path, text))):
            yield '%s:%d %s' % (path, text.count('\n', 0, at) + 1, what)


def main():
    show('1', 'enums like Option or Result, flags, numbers for kinds and refusals', by_rule(point_1))
    show('1', 'numbers that stand for none, by their comments', by_rule(said_none, True))
    show('2', 'twins', twins())
    show('3', 'loops that count, and searches by a loop', by_rule(point_3))
    show('4', 'equality, order, conversion and printing by hand', by_rule(point_4))
    show('5', 'clauses in three functions or more', ('%s: %s (%d)' % (c, t, len(w)) for (c, t), w in sorted(repeated('clauses').items())))
    show('5', 'three parameters in three functions or more', ('%s: %s (%d)' % (c, t, len(w)) for (c, t), w in sorted(repeated('parameters').items())))
    show('6', 'arrays in structs and bodies, and buffers with a place beside', by_rule(point_6))
    show('7', 'switches of steps', by_rule(point_7))
    count, lemmas = answers()
    print('8 answers in proofs: %d; lemmas beside them: %d' % (count, lemmas))


main()
