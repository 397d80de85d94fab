"""Random schemas: many are accepted, and the others break a rule."""
import checker as R


def text(x):
    if isinstance(x, bool):
        return 'true' if x else 'false'
    if isinstance(x, str):
        return "'" + x.replace('\\', '\\\\') + "'"
    if isinstance(x, list):
        return '[ ' + ', '.join(map(text, x)) + ' ]' if x else '[]'
    return '{ ' + ', '.join(text(k) + ': ' + text(v) for k, v in x.items()) + ' }' if x else '{}'


class G:
    def __init__(self, rnd):
        self.r = rnd
        self.names = {k: [] for k in R.KINDS}

    def p(self, q):
        return self.r.random() < q

    def cond(self, depth=0):
        c = self.r.random()
        if c < 0.6 or depth > 3:
            return self.r.choice(['A', 'B', 'C', 'D', 'E'])
        if c < 0.75:
            return {'all': [self.cond(depth + 1) for _ in range(self.r.randrange(3))]}
        if c < 0.9:
            return {'any': [self.cond(depth + 1) for _ in range(self.r.randrange(3))]}
        return {'not': self.cond(depth + 1)}

    def odd(self, name):
        """Now and then a name that is none."""
        if self.p(0.004):
            return self.r.choice(['', 'q_a', '1a', '__x_', '__com.example_x', '*' + name, name + '!', '_a', 'a' * 257,
                                  'a' * 256, '__a_1', '-a', 'a.b', '__.-_a', 'Q_a', '__q_a', '__a.b_q_c'])
        return name

    def feature(self):
        f = self.odd('f%d' % self.r.randrange(12))
        if self.p(0.6):
            return f
        items = [('name', f)]
        if self.p(0.5):
            items.append(('if', self.cond()))
        self.r.shuffle(items)
        return dict(items)

    def features(self):
        n = self.r.choice([0, 1, 1, 2])
        fs = []
        used = set()
        for _ in range(n):
            f = self.feature()
            if R.fname(f) in used and self.p(0.9):
                continue
            used.add(R.fname(f))
            fs.append(f)
        return fs

    def type_name(self, kinds=('enum', 'struct', 'union', 'alternate')):
        c = self.r.random()
        if c < 0.008:
            return self.r.choice(['Nope', '*str', '', 'Cmd0', 'quit'])
        pool = [n for k in kinds for n in self.names[k]]
        if c < 0.45 or not pool:
            return self.r.choice(R.BUILTINS)
        return self.r.choice(pool)

    def ref(self, q=0.2):
        n = self.type_name()
        return [n] if self.p(q) else n

    def typed(self, r, features=True):
        if self.p(0.7):
            return r
        items = [('type', r)]
        if self.p(0.5):
            items.append(('if', self.cond()))
        if features and self.p(0.4):
            items.append(('features', self.features()))
        self.r.shuffle(items)
        return dict(items)

    def members(self, pool, n):
        out = {}
        used = set()
        for _ in range(n):
            name = '%s%d' % (self.r.choice(pool), self.r.randrange(30))
            if name in used and self.p(0.97):
                continue
            used.add(name)
            name = self.odd(name)
            key = ('*' if self.p(0.3) else '') + name
            out[key] = self.typed(self.ref())
        return out

    def enum(self, name):
        vs = []
        used = set()
        for _ in range(self.r.randrange(1, 5)):
            v = self.odd('v%d' % self.r.randrange(6))
            if self.p(0.05):
                v = '%dx' % self.r.randrange(3)
            if v in used and self.p(0.97):
                continue
            used.add(v)
            if self.p(0.25):
                items = [('name', v)]
                if self.p(0.4):
                    items.append(('if', self.cond()))
                if self.p(0.5):
                    items.append(('features', self.features()))
                self.r.shuffle(items)
                v = dict(items)
            vs.append(v)
        e = [('enum', name), ('data', vs)]
        if self.p(0.1):
            e.append(('prefix', 'P'))
        return e

    def struct(self, name):
        e = [('struct', name), ('data', self.members(self.mine(name), self.r.randrange(4)))]
        if self.p(0.3):
            e.append(('base', self.type_name(('struct',) if self.p(0.98) else ('struct', 'union', 'enum'))
                      if self.names['struct'] else 'str'))
            if e[-1][1] in R.BUILTINS and self.p(0.95):
                e.pop()
        return e

    def mine(self, name):
        """Mostly letters of the type's own, so that clashes are seldom."""
        if self.p(0.9):
            return [name.lower().replace('_', 'u')]
        return ['m', 'n']

    def union(self, name):
        enums = self.names['enum'] + ['QType']
        tag = self.r.choice(enums)
        base = self.members(self.mine(name), self.r.randrange(2))
        disc = 'tag' + name.lower()
        key = ('*' if self.p(0.01) else '') + disc
        items = list(base.items()) + [(key, [tag] if self.p(0.005) else (tag if self.p(0.99) else self.ref()))]
        self.r.shuffle(items)
        base = dict(items)
        values = R.QTYPE if tag == 'QType' else self.values.get(tag, [])
        data = {}
        for v in values:
            if self.p(0.5):
                data[v] = self.typed(self.type_name(('struct', 'union') if self.p(0.99) else ('struct', 'enum')), False)
                r = R.ref_of(data[v])
                if r[0] in R.BUILTINS and self.p(0.97):
                    del data[v]
        if self.p(0.01):
            data['other'] = self.type_name(('struct',))
        if self.tagged and self.p(0.25):
            s, d = self.r.choice(self.tagged)
            base, disc = s, d
            data = {}
            for v in self.values.get(self.tag_enum[s], []):
                if self.p(0.5) and self.names['struct']:
                    data[v] = self.r.choice(self.names['struct'])
        return [('union', name), ('base', base), ('discriminator', disc if self.p(0.99) else 'nope'), ('data', data)]

    def alternate(self, name):
        data = {}
        n = self.r.randrange(4)
        kinds = self.r.sample(['str', 'int', 'bool', 'null', 'arr', 'obj'], n)
        if self.p(0.03):
            kinds.append('str')
            kinds.append('num')
        for i, k in enumerate(kinds):
            t = {'str': self.r.choice(['str', 'QType'] + self.names['enum']), 'int': self.r.choice(['int8', 'number', 'size']),
                 'num': 'number', 'bool': 'bool', 'null': 'null', 'arr': [self.type_name()],
                 'obj': self.r.choice(self.names['struct'] + self.names['union'] or ['bool'])}[k]
            if self.p(0.01):
                t = self.r.choice(['any'] + self.names['alternate'])
            data[self.odd('a%d%s' % (i, k))] = self.typed(t, False)
        return [('alternate', name), ('data', data)]

    def payload(self, event=False):
        c = self.r.random()
        out = []
        if c < 0.3:
            out.append(('data', self.members(['x'], self.r.randrange(4))))
        elif c < 0.6 and (self.names['struct'] or self.names['union']):
            t = self.type_name(('struct', 'union') if self.p(0.98) else ('enum', 'alternate', 'struct'))
            if t in R.BUILTINS and self.p(0.97):
                return out
            out.append(('data', t))
            if t in self.names['union'] and self.p(0.97) or self.p(0.1):
                out.append(('boxed', self.p(0.97)))
        return out

    def command(self, name):
        e = [('command', name)] + self.payload()
        if self.p(0.4):
            e.append(('returns', self.ref()))
        for k in ('gen', 'allow-oob', 'allow-preconfig', 'coroutine'):
            if self.p(0.1):
                e.append((k, self.p(0.5)))
        if self.p(0.02):
            e.append(('success-response', self.p(0.7)))
        return e

    def schema(self):
        n = self.r.randrange(1, 12)
        plan = [self.r.choice(R.KINDS + ['struct', 'union', 'enum']) for _ in range(n)]
        names = []
        self.values, self.tagged, self.tag_enum = {}, [], {}
        for i, k in enumerate(plan):
            name = {'enum': 'E', 'struct': 'S', 'union': 'U', 'alternate': 'A', 'command': 'Cmd', 'event': 'EV'}[k] + str(i)
            names.append(name)
            self.names[k].append(name)
        exprs = []
        built = {}
        order = sorted(range(n), key=lambda i: 0 if plan[i] == 'enum' else 1)
        for i in order:
            k, name = plan[i], names[i]
            e = getattr(self, k if k != 'event' else 'event_')(name)
            if k == 'enum':
                self.values[name] = [v if isinstance(v, str) else v['name'] for v in dict(e)['data']]
            if k == 'struct' and self.p(0.2) and self.names['enum']:
                t = self.r.choice(self.names['enum'])
                d = dict(e)
                d['data'] = dict(d['data'])
                d['data']['t' + name.lower()] = t
                e = list(d.items())
                self.tagged.append((name, 't' + name.lower()))
                self.tag_enum[name] = t
            built[i] = e
        for i in range(n):
            e = built[i]
            if self.p(0.2):
                e.append(('if', self.cond()))
            if self.p(0.15):
                e.append(('features', self.features()))
            if self.p(0.3):
                self.r.shuffle(e)
            e = dict(e)
            k = R.kind_of(e)
            if self.p(0.004):
                e[k] = self.odd(self.r.choice([names[self.r.randrange(n)], 'str', 'JobInfo', 'quit', 'JOB_STATUS_CHANGE']))
            elif self.p(0.002):
                e[k] = self.odd(e[k])
            exprs.append(e)
        return exprs

    def event_(self, name):
        return [('event', name)] + self.payload(True)


def files_of(rnd, exprs):
    """The texts of the main file and of one that it may include, and the expressions in reading order."""
    cut = rnd.randrange(len(exprs) + 1) if rnd.random() < 0.3 else 0
    sources, main, other = [], [], []
    for i, expr in enumerate(exprs):
        if i < cut:
            other.append(text(expr))
            sources.append(("other.json", len(other), expr))
            continue
        if not main and cut:
            main.append(text({"include": "other.json"}))
        if rnd.random() < 0.1:
            main.append("# a comment {")
        main.append(text(expr))
        sources.append(("main.json", len(main), expr))
    if cut == len(exprs):
        main.append(text({"include": "other.json"}))
    return "\n".join(main) + "\n", "\n".join(other) + "\n", sources
