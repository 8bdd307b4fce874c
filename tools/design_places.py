#!/usr/bin/env python3
"""Counts the places of docs/DESIGN-PASS.md in the sources of a checkout: design_places.py FOLDER [--list POINT]."""
import os
import re
import sys
from collections import defaultdict

FLAG = r'(outcome|fault|good|failed|answer|kind|refusal|error|told|ended)'
BY_HAND = ('same', 'are_same', 'are_equal', 'is_same', 'same_node', 'same_cells', 'smaller', 'wide', 'bytes_of', 'word_at',
           'big_endian', 'first_word', 'number', 'outcome_number', 'code', 'digit', 'rotate', 'number_at', 'hex_value')


def sources(top):
    for folder, _, names in sorted(os.walk(os.path.join(top, 'crates'))):
        if '/out/' not in folder + '/' and (os.path.basename(folder) == 'src' or '/src/' in folder + '/'):
            for name in sorted(names):
                if name.endswith('.rt'):
                    yield os.path.join(folder, name)


def functions(text):
    """Each fn: its line, its name, its parameters and its clauses."""
    for found in re.finditer(r'^( *)(?:pub(?:\([a-z]+\))? )?(?:extern "C" )?fn (\w+)', text, re.M):
        at, depth = found.end(), 0
        if text[at:at + 1] == '<':
            while True:
                depth += {'<': 1, '>': -1}.get(text[at], 0) if text[at - 1] != '-' else 0
                at += 1
                if depth == 0:
                    break
        start, depth = at, 0
        while True:
            depth += {'(': 1, ')': -1}.get(text[at], 0)
            at += 1
            if depth == 0:
                break
        parameters, piece, depth = [], '', 0
        for letter in text[start + 1:at - 1]:
            depth += {'(': 1, '[': 1, '<': 1, ')': -1, ']': -1, '>': -1}.get(letter, 0)
            if letter == ',' and depth == 0:
                parameters.append(piece.strip())
                piece = ''
            else:
                piece += letter
        if piece.strip():
            parameters.append(piece.strip())
        body = text.find('\n' + found.group(1) + '{', at)
        clauses = text[at:body] if 0 <= body else ''
        yield text.count('\n', 0, found.start()) + 1, found.group(2), parameters, clauses


def structs(text):
    for found in re.finditer(r'^(?:pub )?struct (\w+)[^{;]*\{(.*?)^\}', text, re.M | re.S):
        yield text.count('\n', 0, found.start()) + 1, found.group(1), found.group(2)


def enums(text):
    for found in re.finditer(r'^(?:pub )?enum (\w+)[^{]*\{(.*?)^\}', text, re.M | re.S):
        yield text.count('\n', 0, found.start()) + 1, found.group(1), found.group(2)


def places(top):
    out = defaultdict(list)
    requires = defaultdict(list)
    for path in sources(top):
        text = open(path).read()
        where = os.path.relpath(path, top)
        for line, name, variants in enums(text):
            if re.search(r'Refusal|Problem\b|\(usize\)', variants) or re.search(r'^\s*(Done|Accepted|Whole|Right|Agree|Nothing|Held),', variants, re.M):
                out['1 own enum of the shape of Option or Result'].append((where, line, name))
        for line, name, fields in structs(text):
            if re.search(r'^\s*(?:pub )?' + FLAG + r': (Outcome|Fault|bool|i32|u64)\b', fields, re.M):
                out['1 flag, refusal or kind beside values'].append((where, line, name))
            buffer = re.search(r': \[', fields) or re.search(r': &\'?\w* ?\[', fields)
            if buffer and re.search(r'^\s*(?:pub )?(count|len|length|start|at|size): usize', fields, re.M):
                out['6 buffer with a length beside it'].append((where, line, name))
            if len(re.findall(r': \[[^\]]*MAX_RUNS\]', fields)) > 1:
                out['6 parallel arrays'].append((where, line, name))
        for line, name, parameters, clauses in functions(text):
            if name in BY_HAND:
                out['4 equality, order or conversion by hand'].append((where, line, name))
            if len(parameters) > 6:
                out['5 more than six parameters'].append((where, line, '%s %d' % (name, len(parameters))))
            for fact in re.findall(r'requires [^{]*\{(.*?)\}\s*(?=requires|ensures|$)', clauses, re.S):
                requires[' '.join(fact.split())].append((where, line, name))
        for number, row in enumerate(text.split('\n'), 1):
            if re.match(r'\s*(while|loop)\b', row):
                out['3 while'].append((where, number, row.strip()))
            if re.search(r'(\w+)::(Refused|NotRead|NotDrawn)\((\w+)\) => .*\b(Refused|NotRead|NotDrawn)\(\3', row):
                out['1 refusal handed on by hand, where ? would'].append((where, number, row.strip()))
            if re.match(r'\s*return (true|false);', row):
                out['style return true or false'].append((where, number, row.strip()))
    for fact, users in requires.items():
        if len(users) >= 3:
            out['5 requires that stands at three functions or more'].append((users[0][0], users[0][1], '%d times: %s' % (len(users), fact)))
    for folder, _, names in os.walk(os.path.join(top, 'crates')):
        for name in names:
            path = os.path.join(folder, name)
            where = os.path.relpath(path, top)
            if '/proofs/' not in path or not name.endswith('.antt') or '/out/' in path:
                continue
            rows = open(path).read().split('\n')
            out['8 lines of proof'].extend((where, n, '') for n, row in enumerate(rows, 1) if row)
            out['8 lines of proof over 160 characters'].extend((where, n, row[:60]) for n, row in enumerate(rows, 1) if len(row) > 160)
            out['8 helper laws written again for a place'].extend(
                (where, n, row) for n, row in enumerate(rows, 1) if re.match(r'(abbrev )?[\w-]+-at-(after|else|then)-\S* :', row))
            if name == 'Answers.antt':
                answers = [(where, n, row) for n, row in enumerate(rows, 1) if re.match(r'pub \S+ : .*goal\.', row)]
                out['8 answers'].extend(answers)
    return out


def main():
    found = places(sys.argv[1])
    if len(sys.argv) > 3:
        for name in found:
            if name.startswith(sys.argv[3]):
                for where, line, what in found[name]:
                    print('%s:%d: %s: %s' % (where, line, name, what))
        return
    for name in sorted(found):
        print('%6d  %s' % (len(found[name]), name))


main()
