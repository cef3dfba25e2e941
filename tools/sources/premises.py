"""Premises of contracts: what a caller shows, and the hypotheses of clauses. For tools/believe."""

from sources.contracts import Signature, bounds_of
from sources.expressions import arguments, binder_at, closing, lambda_names, put_for, reduced, split_at, text_of, without_group

# What a clause says of results of one kind: then its premises are those of what it says.
OF_RESULTS = ("IfOk", "OnOk", "IfErr", "OnErr")
# So many definitions are unfolded at the head of a clause, one after another.
DEEPEST = 20


def premises(graph, contract):
    """Each premise with the clauses that have it; what a caller shows has none."""
    found = {}
    for function in contract.functions:
        for kind, name, words, _ in function.clauses():
            label = ": ".join(([function.name] if len(contract.functions) > 1 else []) + ([name] if name else []))
            if kind == "requires":
                found.setdefault(text_of(words), [])
                continue
            for text in Unfolding(graph, function.source).hypotheses(words):
                add_clause(found, text, label)
    for law in contract.laws:
        for text in Unfolding(graph, law.source).hypotheses(law.value()):
            add_clause(found, text, law.name)
    return found


def add_clause(found, text, label):
    if label not in found.setdefault(text, []):
        found[text].append(label)


def type_premises(graph, contract):
    """Its type parameters that are of a trait of the repository, as "K: Keeper"."""
    it = contract.functions[0]
    bounds = bounds_of(contract.impl.generics) if contract.impl else Signature(it).bounds if it.inside is None or it.inside.kind == "impl" else {}
    source = contract.impl.source if contract.impl else it.source
    asked = {name: [trait for trait in traits if graph.is_own_trait(source, trait)] for name, traits in bounds.items()}
    return [f"{name}: {' + '.join(traits)}" for name, traits in asked.items() if traits]


class Unfolding:
    """A clause read down to its conclusion, through the definitions that stand at its head."""

    def __init__(self, graph, source):
        self.graph, self.files = graph, [source]

    def hypotheses(self, words):
        found = []
        for _ in range(DEEPEST):
            words = reduced(without_group(words))
            parts = split_at(words, "→")
            if len(parts) > 1:
                found += [text_of(reduced(without_group(part))) for part in parts[:-1] if without_binders(part)]
                words = parts[-1]
                continue
            words = self.beneath(words)
            if words is None:
                break
            if text_of(words) == "⊥":
                return found[:-1]
        return found

    def beneath(self, words):
        """What an application at the head says, or None."""
        parts = arguments(words)
        if len(parts) == 3 and words[0][0] in OF_RESULTS:
            return body_of(parts[2])
        if text_of(words) == "⊥":
            return words
        specs, it = self.definition(parts[0][0][0]) if parts and len(parts[0]) == 1 else (None, None)
        return self.unfolded(specs, it, parts[1:]) if it is not None and len(it.equations) == 1 else None

    def unfolded(self, specs, it, values):
        left = split_at(it.equations[0], "=")[0]
        own, outer = [word for word, _ in left[1:]], module_parameters(it.around)
        names = own if len(values) == len(own) else outer + own
        if len(names) != len(values):
            return None
        if specs not in self.files:
            self.files.insert(0, specs)
        return put_for(it.equations[0][len(left) + 1 :], dict(zip(names, values)))

    def definition(self, word):
        found = [self.graph.looked_up(holder, word) for holder in self.files]
        return next((pair for pair in found if pair[1] is not None), (None, None))


def body_of(words):
    """What is said of a result: of "λ v. P" P."""
    words = without_group(words)
    return words[lambda_names(words, 0)[1] + 1 :] if words and words[0][0] == "λ" else words


def without_binders(words):
    """The words after groups "(x : T)" at their begin."""
    while words and words[0][0] in "({" and binder_at(words, 0):
        words = words[closing(words, 0) + 1 :]
    return words


def module_parameters(words):
    """The parameters in parentheses of the modules around a definition."""
    return [name for at, (word, _) in enumerate(words) if word == "(" for name in binder_at(words, at)]
