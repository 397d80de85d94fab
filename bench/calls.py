"""Random requests of a session, over a table as bench/admission.py has it."""
import admission as A
import binding_files as F
import bindings as B
import values as V

NEGOTIATION = {'execute': 'qmp_capabilities'}
WITH_OOB = {'execute': 'qmp_capabilities', 'arguments': {'enable': ['oob']}}


class Requests:
    """Random requests, which mostly have a return."""

    def __init__(self, rnd, table, values):
        self.r, self.table, self.values = rnd, table, values
        self.own = [it for it in table.names('command') if it not in B.BEFORE]

    def p(self, chance):
        return self.r.random() < chance

    def requests(self, count):
        """The requests of a session that negotiates, mostly first of all, and then sends so many."""
        first = [self.request() for _ in range(self.r.randrange(3))] if self.p(0.1) else []
        with_oob = self.p(0.5)
        first.append(WITH_OOB if with_oob else NEGOTIATION)
        return first + [self.urgent(0.4 if with_oob else 0.02) for _ in range(count)]

    def urgent(self, chance):
        """A request, by a chance with the other verb."""
        out = self.request()
        if not isinstance(out, dict) or not self.p(chance):
            return out
        return {'exec-oob' if name == 'execute' else name: it for name, it in out.items()}

    def request(self):
        out = {'execute': self.r.choice(self.own if self.p(0.95) else sorted(B.BEFORE))}
        type_ = self.table.argument(out['execute'])
        given = self.arguments(type_)
        if given or self.p(0.7):
            out['arguments'] = given
        if self.p(0.2):
            out['id'] = self.values.any()
        if self.p(0.03):
            return self.odd(out)
        return F.shuffled(self.r, out) if self.p(0.3) else out

    def arguments(self, type_):
        self.values.left = V.SIZE
        given = self.values.fitting(type_) if self.p(0.85) else self.values.nearly(type_)
        if isinstance(given, dict):
            return given
        return {self.r.choice(self.values.names): self.values.any(1)} if type_ == A.ANY else {}

    def odd(self, request):
        """A request that is refused before its arguments are looked at, or may be."""
        name = self.r.choice(['exec-oob', 'x', '', "it's", 'é'])
        return self.r.choice([[request], {}, {**request, name: 1}, {name: 1, **request}, {**request, 'execute': 7},
                              {**request, 'execute': self.r.choice(V.STRINGS)}, {**request, 'arguments': [1]},
                              NEGOTIATION, {**request, 'exec-oob': request['execute']}])
