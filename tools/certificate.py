#!/usr/bin/env python3
"""Writes the proof term of an order or of a ring equation on whole numbers.

usage: certificate.py [--degree N] < QUERY       one query, the term goes to standard output
       certificate.py --fill IN OUT              copies IN to OUT with each {{ QUERY }} replaced by its term

A query has a line for each of:
  vars D N X           the numbers, in order; NAME=TERM where a number is a term
  fact PROOF : A <= B  something known, with its proof; also A < B and A = B
  goal A <= B          what is to be shown; also A < B, and A = B for a ring equation (which takes no facts)
  square E             optional: the square of E may be used
  use 0*3 1 2*4        optional: try these products of facts only (0 is the negated goal, facts count from 1, squares after them)
Expressions are made of the names, decimal numbers, +, -, * and parentheses.

How a certificate is read, and why nothing here needs to be trusted: docs/CERTIFICATES.md.
"""
import re
import sys
from fractions import Fraction
from itertools import combinations_with_replacement
from math import lcm

# ---- expressions: ('number', n), ('name', index), ('-', a) and (operator, a, b)


class Parser:
    def __init__(self, text, names):
        self.tokens = re.findall(r'[()+*-]|[^\s()+*-]+', text)
        self.place = 0
        self.names = names

    def peek(self):
        return self.tokens[self.place] if self.place < len(self.tokens) else None

    def next(self):
        self.place += 1
        return self.tokens[self.place - 1]

    def sum(self):
        left = self.product()
        while self.peek() in ('+', '-'):
            operator = self.next()
            left = (operator, left, self.product())
        return left

    def product(self):
        left = self.atom()
        while self.peek() == '*':
            self.next()
            left = ('*', left, self.atom())
        return left

    def atom(self):
        token = self.next()
        if token == '(':
            inner = self.sum()
            if self.next() != ')':
                raise SystemExit('a parenthesis is not closed')
            return inner
        if token == '-':
            return ('-', self.atom())
        if token.replace('_', '').isdigit():
            return ('number', int(token.replace('_', '')))
        if token in self.names:
            return ('name', self.names.index(token))
        raise SystemExit('unknown name: ' + token)


def parse(text, names):
    parser = Parser(text, names)
    result = parser.sum()
    if parser.peek() is not None:
        raise SystemExit('not an expression: ' + text)
    return result


LEVEL = {'+': 65, '-': 65, '*': 70}
ATOM = 100


def shown(e, level=0):
    """The expression as a term of proofs/Ring.antt."""
    kind = e[0]
    if kind == 'number':
        text, own = '# %d' % e[1], 99
    elif kind == 'name':
        text, own = ('v%d' % e[1], ATOM) if e[1] < 10 else ('var %d' % e[1], 99)
    elif len(e) == 2:
        text, own = 'opp ' + shown(e[1], ATOM), 99
    else:
        own = LEVEL[kind]
        text = '%s :%s %s' % (shown(e[1], own), kind, shown(e[2], own + 1))
    return '(%s)' % text if own < level else text


# ---- polynomials: a dictionary from a monomial (a sorted tuple of names' indices) to its coefficient


def added(a, b, factor=1):
    result = dict(a)
    for monomial, k in b.items():
        result[monomial] = result.get(monomial, 0) + factor * k
        if result[monomial] == 0:
            del result[monomial]
    return result


def multiplied(a, b):
    result = {}
    for m, k in a.items():
        for n, j in b.items():
            monomial = tuple(sorted(m + n))
            result[monomial] = result.get(monomial, 0) + k * j
    return {m: k for m, k in result.items() if k}


def polynomial(e):
    kind = e[0]
    if kind == 'number':
        return {(): e[1]} if e[1] else {}
    if kind == 'name':
        return {(e[1],): 1}
    if len(e) == 2:
        return added({}, polynomial(e[1]), -1)
    if kind == '*':
        return multiplied(polynomial(e[1]), polynomial(e[2]))
    return added(polynomial(e[1]), polynomial(e[2]), 1 if kind == '+' else -1)


def solve(columns, wanted):
    """Factors x >= 0 with columns * x = wanted, by the simplex method (Bland's rule), or None."""
    rows, n = len(wanted), len(columns[0])
    table = []
    for i in range(rows):
        sign = -1 if wanted[i] < 0 else 1
        table.append([Fraction(sign * v) for v in columns[i]] + [Fraction(int(j == i)) for j in range(rows)] + [Fraction(sign * wanted[i])])
    basis = [n + i for i in range(rows)]
    cost = [-sum(row[j] for row in table) if j < n else Fraction(0) for j in range(n + rows)] + [-sum(row[-1] for row in table)]
    while True:
        column = next((j for j in range(n) if cost[j] < 0), None)
        if column is None:
            break
        candidates = [(table[i][-1] / table[i][column], basis[i], i) for i in range(rows) if table[i][column] > 0]
        if not candidates:
            return None
        row = min(candidates)[2]
        pivot = table[row][column]
        table[row] = [v / pivot for v in table[row]]
        for i in range(rows):
            if i != row and table[i][column]:
                factor = table[i][column]
                table[i] = [u - factor * v for u, v in zip(table[i], table[row])]
        factor = cost[column]
        cost = [u - factor * v for u, v in zip(cost, table[row])]
        basis[row] = column
    if cost[-1] != 0:
        return None
    result = [Fraction(0)] * n
    for i in range(rows):
        if basis[i] < n:
            result[basis[i]] = table[i][-1]
    return result


# ---- queries

RELATIONS = {'<=': ':≤', '≤': ':≤', '<': ':<', '=': ':≡', '≡': ':≡'}


def relation(text, names):
    left, symbol, right = re.split(r'(<=|≤|<|=|≡)', text)
    return parse(left, names), RELATIONS[symbol], parse(right, names)


def gap(a, symbol, b):
    """What the relation makes not negative."""
    difference = added(polynomial(b), polynomial(a), -1)
    return added(difference, {(): -1}) if symbol == ':<' else difference


NEGATED = {':≤': ':<', ':<': ':≤'}
THEOREM = {':≤': 'le_by', ':<': 'lt_by'}


def words(text):
    """Split at spaces that stand in no parentheses."""
    result, depth, word = [], 0, ''
    for c in text + ' ':
        if c == ' ' and depth == 0:
            if word:
                result.append(word)
            word = ''
        else:
            word += c
            depth += (c == '(') - (c == ')')
    return result


def answer(query, degree):
    names, terms, facts, squares, goal, use = [], [], [], [], None, None
    for line in query.splitlines():
        kind, _, rest = line.strip().partition(' ')
        if kind == 'vars':
            for word in words(rest):
                name, _, term = word.partition('=')
                names.append(name)
                terms.append(term or name)
        elif kind == 'fact':
            proof, _, statement = rest.partition(' : ')
            facts.append((proof.strip(),) + relation(statement, names))
        elif kind == 'goal':
            goal = relation(rest, names)
        elif kind == 'square':
            squares.append(parse(rest, names))
        elif kind == 'use':
            use = [tuple(int(i) for i in word.split('*')) for word in rest.split()]
        elif kind:
            raise SystemExit('unknown line: ' + line)
    if goal is None:
        raise SystemExit('no goal')
    environment = '(' + ''.join(term + ' ∷ ' for term in terms) + '[])'
    a, symbol, b = goal
    if symbol == ':≡':
        difference = added(polynomial(a), polynomial(b), -1)
        if difference:
            raise SystemExit('not an identity; the difference is %s' % {'*'.join(names[i] for i in m) or '1': k for m, k in difference.items()})
        return 'ring %s %s %s tt' % (environment, shown(a, ATOM), shown(b, ATOM))

    gaps = [gap(b, NEGATED[symbol], a)] + [gap(*fact[1:]) for fact in facts]
    kinds = ['hyp %d' % i for i in range(len(gaps))] + ['sqr %s' % shown(e, ATOM) for e in squares]
    gaps += [multiplied(polynomial(e), polynomial(e)) for e in squares]
    products = use or [p for d in range(1, degree + 1) for p in combinations_with_replacement(range(len(gaps)), d)]
    columns, labels = [], []
    for product in products:
        column = {(): 1}
        for i in product:
            column = multiplied(column, gaps[i])
        columns.append(column)
        labels.append([kinds[i] for i in product])
    for i, fact in enumerate(facts, 1):
        if fact[2] == ':≡':
            for name in [None] + list(range(len(names))):
                for sign in (1, -1):
                    columns.append(multiplied(gaps[i], {(() if name is None else (name,)): sign}))
                    labels.append((i, name, sign))
    columns.append({(): 1})
    labels.append([])
    monomials = sorted({()} | {m for column in columns for m in column}, key=lambda m: (len(m), m))
    factors = solve([[column.get(m, 0) for column in columns] for m in monomials], [-1 if m == () else 0 for m in monomials])
    if factors is None:
        raise SystemExit('no certificate among %d products of degree %d' % (len(columns), degree))
    scale = lcm(*[f.denominator for f in factors])
    parts = []
    for label, factor in zip(labels, factors):
        k = int(factor * scale)
        if k == 0:
            continue
        if isinstance(label, tuple):
            i, name, sign = label
            e = ('number', k) if name is None else ('*', ('number', k), ('name', name))
            parts.append('tim %s %d' % (shown(e if sign > 0 else ('-', e), ATOM), i))
        else:
            parts.append(' ⊗ '.join((['nat %d' % k] if k > 1 or not label else []) + label))
    stated = ''.join('(%s %s %s) ∷ ' % (shown(x), s, shown(y)) for _, x, s, y in facts)
    proofs = ''.join(' ' + fact[0] for fact in facts)
    return '%s %s (%s[]) %s %s (%s) tt%s' % (THEOREM[symbol], environment, stated, shown(a, ATOM), shown(b, ATOM), ' ⊕ '.join(parts), proofs)


def filled(match):
    query, degree = match.group(1).strip(), 2
    if query.startswith('--degree'):
        option, _, query = query.partition('\n')
        degree = int(option.split()[1])
    try:
        return '(' + answer(query, degree) + ')'
    except SystemExit as refusal:
        raise SystemExit('%s\nin: %s' % (refusal, match.group(0)))


def main(arguments):
    if arguments[:1] == ['--fill'] and len(arguments) == 3:
        with open(arguments[1], encoding='utf-8') as source:
            text = source.read()
        text = re.sub(r'\{\{(.*?)\}\}', filled, text, flags=re.S)
        with open(arguments[2], 'w', encoding='utf-8') as target:
            target.write(text)
    elif not arguments or (arguments[0] == '--degree' and len(arguments) == 2):
        print(answer(sys.stdin.read(), int(arguments[1]) if arguments else 2))
    else:
        raise SystemExit(__doc__)


if __name__ == '__main__':
    main(sys.argv[1:])
