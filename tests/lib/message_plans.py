"""Plans, which of them are sound, their walks and ranks; for message_world.py."""
import collections

LOCAL = '-'
Key = collections.namedtuple('Key', 'sop_class syntax modality')
Rule = collections.namedtuple('Rule', 'caller sop_class modality to keep')
Accept = collections.namedtuple('Accept', 'callers sop_class syntaxes')
Flow = collections.namedtuple('Flow', 'at to pairs modalities')
KEYS = [Key(c, s, m) for c in 'CD' for s in 'IE' for m in ('CT', 'MR', 'none of them')]


class Plan:
    def __init__(self, rules, accepts, flows):
        self.rules, self.accepts, self.flows = rules, accepts, flows
        self.ranks, self.hops, self.known_walks = {}, collections.defaultdict(set), {}

    def sends(self, name, caller, key):
        if caller == LOCAL:
            return {f.to for f in self.flows if f.at == name and key[:2] in f.pairs and f.modalities in ('*', key.modality)}
        return {to for r in self.held(name, caller, key) for to in r.to}

    def keeps(self, name, caller, key):
        return caller != LOCAL and any(r.keep for r in self.held(name, caller, key))

    def held(self, name, caller, key):
        return [r for r in self.rules[name] if r.caller in ('*', caller) and r.sop_class in ('*', key.sop_class) and r.modality in ('*', key.modality)]

    def takes(self, name, caller, pair):
        return any(a.callers in ('*', caller) and a.sop_class == pair[0] and pair[1] in a.syntaxes for a in self.accepts[name])

    def walks(self, caller, name, key):
        """The places (caller, node) of each walk from there."""
        at = caller, name, key
        if at not in self.known_walks:
            self.known_walks[at] = [[(caller, name)]] + [[(caller, name)] + w for to in sorted(self.sends(name, caller, key)) for w in self.walks(name, to, key)]
        return self.known_walks[at]

    def destinations(self, caller, name, key):
        return {w[-1][1] for w in self.walks(caller, name, key) if self.keeps(w[-1][1], w[-1][0], key)}

    def is_sound(self):
        """Whether it is, with its ranks and hops. The keys above stand for all keys of these plans."""
        def rank(caller, name, key, before):
            if (caller, name) in before:
                return None
            targets = self.sends(name, caller, key)
            if not targets and not self.keeps(name, caller, key):
                return None
            longest = 0
            for to in targets:
                if not self.takes(to, name, key[:2]):
                    return None
                self.hops[name, to].add(key[:2])
                further = rank(name, to, key, before | {(caller, name)})
                if further is None:
                    return None
                longest = max(longest, further + 1)
            self.ranks[caller, name, key] = longest
            return longest
        entries = [(n, k) for k in KEYS for n in self.rules if self.sends(n, LOCAL, k)]
        return all(rank(LOCAL, n, k, frozenset()) is not None for n, k in entries)


def random_plan(dice):
    while True:
        names = 'ABCDE'[:dice.randint(2, 5)]
        rules, accepts = {}, {}
        for name in names:
            others = [n for n in names if n != name]
            rules[name] = [Rule(dice.choice(['*'] + others), dice.choice('**CD'), dice.choice(['*', '*', 'CT', 'MR']),
                                dice.sample(others, dice.randint(0, min(2, len(others)))), dice.random() < 0.5) for _ in range(dice.randint(0, 3))]
            if dice.random() < 0.5:
                rules[name].append(Rule('*', '*', '*', [], True))
            accepts[name] = [Accept('*', c, 'IE') for c in 'CD'] if dice.random() < 0.8 else [Accept(dice.choice(others), dice.choice('CD'), 'E')]
        flows = []
        for _ in range(dice.randint(1, 4)):
            at, to = dice.sample(names, 2)
            flows.append(Flow(at, to, {(dice.choice('CD'), dice.choice('IE')) for _ in range(2)}, dice.choice(['*', 'CT', 'MR'])))
        plan = Plan(rules, accepts, flows)
        if plan.is_sound() and len(plan.ranks) > 2:
            return plan


def grown(plan, dice):
    """A sound plan that does all that this one does: a node keeps more, or sends all to a new node too, which keeps it."""
    rules, accepts = {n: list(rs) for n, rs in plan.rules.items()}, dict(plan.accepts)
    name = dice.choice(sorted(rules))
    if len(rules) > 6 or dice.random() < 0.4:
        rules[name].append(Rule('*', '*', '*', [], True))
    else:
        new = f'N{len(rules)}'
        rules[name].append(Rule('*', '*', '*', [new], False))
        rules[new], accepts[new] = [Rule('*', '*', '*', [], True)], [Accept('*', c, 'IE') for c in 'CD']
    next_plan = Plan(rules, accepts, plan.flows)
    assert next_plan.is_sound()
    return next_plan
