"""Reads the texts of tests/examples: one record a work or a pair of terms. A reader gives, for each part, its definition's text.

    body f of u          a function's body: predicates, specs, temps, code, script
    sub f of u           a subsumption: predicates, specs, own (the unit's spec), wanted (the interface's), script
    init of u            an initial predicate: predicates, specs, globals, wanted, script
    pair                 two terms, and whether they have one normal form; or a term, and its normal form

Terms, facts and items are written as in a unit, but a variable is `?0:int`, its number and its sort. A step is its number, its rule's
word, the parts in the order of `Move`, and its blocks. A record ends with `verdict accepted`, `verdict refused STEP RULE CONDITION`,
`equal`, `differ`, or `is TERM`. A line from `--` on is a comment.
"""
import re

TOKEN = re.compile(r'\s+|--[^\n]*|(-?\d+|[A-Za-z_]\w*|!=|<=|[()\[\]{},;:?=<+*-])')

SORTS = {'int': 'Int', 'val': 'Val', 'list': 'List'}
ONE = {'len': 'Len', 'sum': 'Sum', 'num': 'Num', 'unum': 'Unum', 'vi': 'Vi', 'rev': 'Rev'}
TWO = {w: w.capitalize() for w in 'quot rem band bor bxor shl shr lt le eq off nth cons app rep'.split()}
THREE = {'upd': 'Upd', 'sub': 'Slice'}
INFIX = {'+': 'Add', '-': 'Sub', '*': 'Mul'}
RELATIONS = {'=': 'Eq', '!=': 'Ne', '<=': 'Le', '<': 'Lt'}

# the parts of each rule's step, in the order of `Move`
MOVES = {
    'skip': ('Skip', ''), 'set': ('Set', 'nats certs'), 'load': ('Load', 'nat nats certs'), 'store': ('Store', 'nat nats certs'),
    'if': ('If', 'nats certs names names'), 'while': ('While', 'assertion assertion names names names'),
    'break': ('Break', 'terms certs'), 'continue': ('Continue', 'terms certs'), 'return': ('Return', 'terms nats certs'),
    'fall': ('Fall', 'terms certs'), 'block': ('Block', 'nat assertion names names'), 'pose': ('Pose', 'assertion names names'),
    'call': ('Call', 'terms nats certs names'), 'malloc': ('Malloc', 'name names names'), 'free': ('Free', 'nat nat certs'),
    'makelock': ('MakeLock', 'nat label nats certs'), 'acquire': ('Acquire', 'nat nats'), 'release': ('Release', 'nat nat nats'),
    'freelock': ('FreeLock', 'nat nat nats certs'), 'spawn': ('Spawn', 'terms nats certs'),
    'fold': ('Fold', 'name nat terms terms certs'), 'unfold': ('Unfold', 'nat lists'), 'split': ('Split', 'fact names names'),
    'absurd': ('Absurd', 'certs'), 'have': ('Have', 'fact certs'), 'law': ('Law', 'name terms certs'), 'subst': ('Subst', 'name'),
    'rewrite': ('Rewrite', 'flag nat occurrence'), 'cut': ('Cut', 'nat term term'), 'glue': ('Glue', 'nat nat'),
    'share': ('Share', 'nat term certs'), 'unshare': ('Unshare', 'nat nat certs'), 'agree': ('Agree', 'nat nat certs'),
    'bounds': ('Bounds', 'nat maybe certs'), 'apart': ('Apart', 'nat nat certs'), 'forget': ('Forget', 'forgotten'),
    'meet': ('Meet', 'terms certs'), 'name': ('Naming', 'name term'),
}

# the parts of each statement, expression and condition, in the order of the constructors
STATEMENTS = {
    'skip': ('Skip', ''), 'set': ('Set', 'nat expr'), 'load': ('Load', 'nat place'), 'store': ('Store', 'place expr'),
    'call': ('Call', 'maybe name exprs'), 'malloc': ('Malloc', 'nat nat'), 'free': ('Free', 'expr'), 'lock': ('OnLock', 'lockop expr'),
    'spawn': ('Spawn', 'name expr'), 'if': ('If', 'cond code code'), 'loop': ('Loop', 'code'), 'break': ('Break', ''),
    'continue': ('Continue', ''), 'return': ('Return', 'result'),
}
CONDITIONS = {'nonzero': ('Nonzero', 'kind expr'), 'pointers': ('Pointers', 'expr expr flag')}
UNARY = ['minus', 'not', 'invert']
BINARY = 'add sub mul div rem and or xor shl shr eq ne lt le gt ge'.split()


class Bad(Exception):
    pass


def listed(parts):
    return '(' + ''.join(p + ' ∷ ' for p in parts) + '[])'


def applied(head, parts):
    return '(%s)' % ' '.join([head] + parts) if parts else head


class Reader:
    def __init__(self, text, where):
        self.where, self.at, self.tokens, self.names = where, 0, [], set()
        place = 0
        while place < len(text):
            m = TOKEN.match(text, place)
            if not m:
                raise Bad('%s: line %d: no token' % (where, text.count('\n', 0, place) + 1))
            if m.group(1):
                self.tokens.append((m.group(1), place))
            place = m.end()
        self.text = text

    # ---- tokens

    def peek(self):
        return self.tokens[self.at][0] if self.at < len(self.tokens) else ''

    def next(self):
        t = self.peek()
        self.at += 1
        return t

    def take(self, word):
        if self.next() != word:
            self.at -= 1
            place = self.tokens[self.at][1] if self.at < len(self.tokens) else len(self.text)
            raise Bad('%s: line %d: %s is wanted, not %s' % (self.where, self.text.count('\n', 0, place) + 1, word, self.peek() or 'the end'))

    def has(self, word):
        if self.peek() == word:
            self.at += 1
            return True
        return False

    def many(self, part, close):
        out = []
        if not self.has(close):
            out.append(part())
            while self.has(','):
                out.append(part())
            self.take(close)
        return out

    def bracketed(self, part):
        self.take('[')
        return listed(self.many(part, ']'))

    def parts(self, words):
        out = []
        if words:
            self.take('(')
            for k, word in enumerate(words.split()):
                if k:
                    self.take(',')
                out.append(getattr(self, word)())
            self.take(')')
        return out

    # ---- small parts

    def nat(self):
        return str(int(self.next()))

    def integer(self):
        n = int(self.next())
        return '(pos %d)' % n if n >= 0 else '(negsuc %d)' % (-n - 1)

    def maybe(self):
        return 'None' if self.has('none') else '(Some %s)' % self.nat()

    def flag(self):
        return {'true': 'true', 'false': 'false'}[self.next()]

    def word(self):
        w = self.next()
        if not re.match(r'[A-Za-z_]\w*$', w):
            self.at -= 1
            self.take('a name')
        return w

    def name(self):
        w = self.word()
        self.names.add(w)
        return 'name_' + w

    def sort(self):
        return 'sort.' + SORTS[self.next()]

    def nats(self):
        return self.bracketed(self.nat)

    def names_(self):
        return self.bracketed(self.name)

    def lists(self):
        return self.bracketed(self.names_)

    def term(self):
        left = self.product()
        while self.peek() in ('+', '-'):
            o = INFIX[self.next()]
            left = '(Of2 binary.%s %s %s)' % (o, left, self.product())
        return left

    def product(self):
        left = self.atom()
        while self.has('*'):
            left = '(Of2 binary.Mul %s %s)' % (left, self.atom())
        return left

    def atom(self):
        t = self.peek()
        if re.match(r'-?\d', t):
            return '(Number %s)' % self.integer()
        if self.has('('):
            inner = self.term()
            self.take(')')
            return inner
        if self.has('['):
            out = 'Nil'
            for x in reversed(self.many(self.term, ']')):
                out = '(Of2 binary.Cons %s %s)' % (x, out)
            return out
        if self.has('?'):
            n = self.nat()
            self.take(':')
            return '(Var %s %s)' % (n, self.sort())
        if t in ('nil', 'undef'):
            return self.next().capitalize()
        if t == 'addr':
            self.next()
            return applied('Global', self.parts('name'))
        for table, head, words in ((ONE, 'Of unary.', 'term'), (TWO, 'Of2 binary.', 'term term'), (THREE, 'Of3 ternary.', 'term term term')):
            if t in table:
                self.next()
                return applied(head + table[t], self.parts(words))
        return '(Named %s)' % self.name()

    def terms(self):
        return self.bracketed(self.term)

    # ---- assertions

    def fact(self):
        for w, head, words in (('isint', 'IsInt', 'term'), ('isptr', 'IsPtr', 'term'), ('each', 'Each', 'term term term')):
            if self.has(w):
                return applied(head, self.parts(words))
        left = self.term()
        o = self.next()
        return '(Rel relation.%s %s %s)' % (RELATIONS[o], left, self.term())

    def label(self):
        n = self.name()
        self.take('(')
        return '(record { name = %s; args = %s })' % (n, listed(self.many(self.term, ')')))

    def item(self):
        for w, head, words in (('data', 'Data', 'term term term'), ('lock', 'Lock', 'term term label'), ('holds', 'Holds', 'term label'),
                               ('token', 'Token', 'term term')):
            if self.has(w):
                return applied(head, self.parts(words))
        return '(Pred %s)' % self.label()

    def local(self):
        n = self.name()
        self.take('=')
        return '(%s, %s)' % (n, self.term())

    def assertion(self):
        def part(word, reader):
            if not self.has(word):
                return '[]'
            self.take('(')
            return listed(self.many(reader, ')'))
        opened, facts, locals_, items = (part(w, r) for w, r in (('ex', self.sort), ('prop', self.fact), ('local', self.local), ('sep', self.item)))
        return '(record { opened = %s; facts = %s; locals = %s; items = %s })' % (opened, facts, locals_, items)

    def predicate(self):
        n = self.name()
        self.take('(')
        args, cases = listed(self.many(self.sort, ')')), []
        while self.has('case'):
            cases.append(self.assertion())
        return '(record { name = %s; args = %s; cases = %s })' % (n, args, listed(cases))

    def binder(self):
        n = self.name()
        self.take(':')
        return '(%s, %s)' % (n, self.sort())

    def spec(self):
        """The name and the definition."""
        is_void = {'void': 'true', 'value': 'false'}[self.next()]
        w = self.peek()
        n = self.name()
        self.take('(')
        params, binders = listed(self.many(self.name, ')')), '[]'
        if self.has('with'):
            self.take('(')
            binders = listed(self.many(self.binder, ')'))
        self.take('pre')
        pre = self.assertion()
        self.take('post')
        return w, '(record { is_void = %s; name = %s; params = %s; vars = %s; pre = %s; post = %s })' % (
            is_void, n, params, binders, pre, self.assertion())

    # ---- code

    def kind(self):
        return 'kind.' + {'signed': 'Signed', 'unsigned': 'Unsigned'}[self.next()]

    def lockop(self):
        return 'lock.' + self.next().capitalize()

    def expr(self):
        t = self.peek()
        if re.match(r'\d', t):
            return '(c.Const %s)' % self.nat()
        self.next()
        if t == 'temp':
            return applied('c.Temp', self.parts('nat'))
        if t == 'address':
            return applied('c.Address', self.parts('place'))
        if t in UNARY:
            return applied('c.Unary one.' + t.capitalize(), self.parts('kind expr'))
        if t in BINARY:
            return applied('c.Binary two.' + t.capitalize(), self.parts('kind expr expr'))
        self.at -= 1
        self.take('an expression')

    def exprs(self):
        return self.bracketed(self.expr)

    def result(self):
        return 'None' if self.has('none') else '(Some %s)' % self.expr()

    def place(self):
        """A root and a path: `temp 0`, `global g 1`, then `+ 2` or `[signed, e]`."""
        if self.has('temp'):
            root = '(root.Temp %s)' % self.nat()
        else:
            self.take('global')
            n = self.name()
            root = '(root.Global %s %s)' % (n, self.nat())
        path = []
        while self.peek() in ('+', '['):
            if self.has('+'):
                path.append('c.Offset %s' % self.nat())
            else:
                self.take('[')
                k = self.kind()
                self.take(',')
                path.append('c.Index %s %s' % (k, self.expr()))
                self.take(']')
        out = 'c.Here'
        for p in reversed(path):
            out = '(%s %s)' % (p, out)
        return '%s %s' % (root, out)

    def cond(self):
        head, words = CONDITIONS[self.next()]
        return applied('c.' + head, self.parts(words))

    def code(self):
        self.take('{')
        out = []
        while not self.has('}'):
            head, words = STATEMENTS[self.next()]
            out.append(applied('c.' + head, self.parts(words)))
            self.take(';')
        done = 'c.End'
        for s in reversed(out):
            done = '(c.Then %s %s)' % (s, done)
        return done

    # ---- scripts

    def cert(self):
        """Lines between braces: `1 * 0 + 2 * 3`, multipliers and rows; `cut 2 0`, a divisor and a row."""
        self.take('{')
        out = []
        while not self.has('}'):
            if self.has('cut'):
                d = self.integer()
                out.append('(line.Cut %s %s)' % (d, self.nat()))
            else:
                pairs = []
                while True:
                    m = self.integer()
                    self.take('*')
                    pairs.append('(%s, %s)' % (m, self.nat()))
                    if not self.has('+'):
                        break
                out.append('(line.Comb %s)' % listed(pairs))
            if self.peek() != '}':
                self.take(';')
        return '(record { lines = %s })' % listed(out)

    def certs(self):
        return self.bracketed(self.cert)

    def occurrence(self):
        w = self.next()
        if w == 'local':
            return '(occurrence.Local %s)' % self.name()
        return '(occurrence.%s %s)' % ({'prop': 'Prop', 'sep': 'Item'}[w], self.nat())

    def forgotten(self):
        if self.has('local'):
            return '(forgotten.Local %s)' % self.name()
        self.take('prop')
        return '(forgotten.Prop %s)' % self.nat()

    def steps(self):
        self.take('{')
        out = []
        while not self.has('}'):
            n = self.nat()
            head, words = MOVES[self.next()]
            move, blocks = applied('s.' + head, self.parts(words.replace('names', 'names_'))), []
            while self.peek() == '{':
                blocks.append(self.steps())
            behind = 's.NoBlock'
            for b in reversed(blocks):
                behind = '(s.WithBlock %s %s)' % (b, behind)
            self.take(';')
            out.append('s.Then %s %s %s' % (n, move, behind))
        done = 's.End'
        for s in reversed(out):
            done = '(%s %s)' % (s, done)
        return done

    # ---- records

    def scope(self):
        predicates, specs = [], []
        while self.has('predicate'):
            predicates.append(self.predicate())
        while self.has('spec'):
            specs.append(self.spec())
        return '(record { predicates = %s; specs = %s })' % (listed(predicates), listed(d for _, d in specs)), specs

    def verdict(self):
        self.take('verdict')
        if self.has('accepted'):
            return 'Accepted'
        self.take('refused')
        return '(RefusedAt %s %s %s)' % (self.nat(), self.nat(), self.nat())

    def body(self):
        f = self.word()
        self.take('of')
        self.word()
        scope, specs = self.scope()
        own = next(d for n, d in specs if n == f)
        self.take('temps')
        temps = self.names_()
        self.take('code')
        code = self.code()
        self.take('script')
        script = self.steps()
        return 'body_verdict %s %s (record { temps = %s; body = %s }) %s ≡ %s' % (scope, own, temps, code, script, self.verdict())

    def sub(self):
        self.word()
        self.take('of')
        self.word()
        scope, _ = self.scope()
        self.take('own')
        own = self.spec()[1]
        self.take('wanted')
        wanted = self.spec()[1]
        self.take('script')
        script = self.steps()
        return 'sub_verdict %s %s %s %s ≡ %s' % (scope, own, wanted, script, self.verdict())

    def init(self):
        self.take('of')
        self.word()
        scope, _ = self.scope()
        globals_ = []
        while self.has('global'):
            n, cells = self.name(), self.nat()
            globals_.append('(record { name = %s; cells = %s; values = %s })' % (n, cells, self.terms()))
        self.take('wanted')
        wanted = self.assertion()
        self.take('script')
        script = self.steps()
        return 'init_verdict %s %s %s %s ≡ %s' % (scope, listed(globals_), wanted, script, self.verdict())

    def pair(self):
        a = self.term()
        if self.has('is'):
            return 'normal %s ≡ %s' % (a, self.term())
        self.take(',')
        b = self.term()
        return 'same (normal %s) (normal %s) ≡ %s' % (a, b, {'equal': 'true', 'differ': 'false'}[self.next()])

    def records(self):
        """The equation and the names of each record."""
        out = []
        while self.at < len(self.tokens):
            self.names = set()
            w = self.next()
            if w not in ('body', 'sub', 'init', 'pair'):
                self.at -= 1
                self.take('body, sub, init or pair')
            e = getattr(self, w)()
            out.append((w, e, self.names))
        return out
