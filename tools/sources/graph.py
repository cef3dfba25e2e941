"""Which definitions stand on which: for tools/believe. It follows names from contracts through specs, types and their views."""

import re

from sources.contracts import PRELUDE, Signature, Source, bounds_of, closing_angle, closing_brace, split_commas
from sources.expressions import free_names, words_of
from sources.specs import Fault, Specs

FIELD = re.compile(r"\s*(?:pub(?:\([a-z]+\))? )?(ghost )?(\w+):\s+(.*)", re.S)
# ⟦<T as Trait>⟧.item
QUALIFIED = re.compile(r"⟦<\s*.*? as (\w+)>⟧\.")


class Node:
    """A definition that must be read: where it is, how long, and what it stands on."""

    def __init__(self, key, name, path, line, size, about, crate):
        self.key, self.name, self.path, self.line, self.size, self.about, self.crate = key, name, path, line, size, about, crate
        self.below, self.kit = {}, {}


class Context:
    """Where a name of a contract stands: its file, what holds it, and the types of parameters."""

    def __init__(self, source, inside, types, bounds):
        self.source, self.inside, self.types, self.bounds = source, inside, types, bounds


class Graph:
    def __init__(self, top):
        self.top = top
        self.crates = {path.name for path in (top / "crates").iterdir() if (path / "src").is_dir()}
        self.specs, self.sources, self.nodes, self.parameters = {}, {}, {}, {}

    # FILES

    def specs_of(self, crate, module):
        """A specs file, or None if there is no such file."""
        if (crate, module) not in self.specs:
            file = self.top / "crates" / crate / "specs" / (module.replace(".", "/") + ".antt")
            self.specs[crate, module] = Specs(file, crate, str(file.relative_to(self.top))) if file.is_file() else None
        return self.specs[crate, module]

    def sources_of(self, crate):
        if crate not in self.sources:
            files = sorted((self.top / "crates" / crate / "src").rglob("*.rt"))
            self.sources[crate] = [Source(self.top, crate, file) for file in files]
        return self.sources[crate]

    # TYPES AND TRAITS OF THE LANGUAGE

    def find(self, crate, name, part, place):
        """The item of that name among a crate's types or traits, also where the crate takes it from another; None if it is of the kit."""
        if crate not in self.crates:
            return None
        found = [getattr(source, part)[name] for source in self.sources_of(crate) if name in getattr(source, part)]
        if found:
            return found[0] if len(found) == 1 else self.public(found, place)
        for source in self.sources_of(crate):
            path = source.rust.get(name)
            if path and path[0] != crate:
                return self.find(path[0], path[-1], part, place)
        raise Fault(f"{place}: {crate} has no {name} among its {part}")

    def public(self, found, place):
        outside = [it for it in found if it.source.lines[it.line - 1].startswith("pub ")]
        if len(outside) != 1:
            raise Fault(f"{place}: {found[0].name} is in {' and in '.join(it.path for it in found)}")
        return outside[0]

    def named_in(self, source, name, part, place):
        """The type or trait that a name of this file is; None if it is of the kit."""
        if name in getattr(source, part):
            return getattr(source, part)[name]
        path = source.rust.get(name)
        if path is None and name in PRELUDE:
            return None
        return self.find(path[0], path[-1], part, place) if path else self.find(source.crate, name, part, place)

    def model_of(self, item):
        """The impl that says what contracts see of a type, or None."""
        models = [it for source in self.sources_of(item.source.crate) for it in source.impls if it.trait == "Model" and it.name == item.name]
        return min(models, key=lambda it: it.source is not item.source, default=None)

    # NODES

    def node(self, key, name, item, size, about, crate, fill):
        if key not in self.nodes:
            it = Node(key, name, item.path, item.line, size, about, crate)
            self.nodes[key] = it
            fill(it)
        return self.nodes[key]

    def add(self, node, other):
        if other is not None and other is not node:
            node.below[other.key] = other

    def of_specs(self, specs, name):
        it = specs.definitions[specs.members.get(name, name)]
        if it.is_proof:
            return None

        def fill(node):
            for word, line in specs.uses_of(it, self.is_constructor):
                self.add(node, self.in_specs(specs, word, f"{specs.path}:{line}", node))

        return self.node(("specs", specs.path, it.name), it.name, it, it.size(), it.about, specs.crate, fill)

    def is_constructor(self, crate, module, name):
        """Whether a name that is brought in is one; of the kit and of types of the language it is taken for one."""
        part, _, rest = module.partition(".")
        specs = self.specs_of(crate, rest) if crate in self.crates and part == "specs" and not rest.startswith("declared.") else None
        return specs is None or name in specs.members

    def in_specs(self, specs, word, place, node):
        head, _, rest = word.partition(".")
        if head in specs.definitions or head in specs.members:
            return self.of_specs(specs, head)
        return self.imported(specs, head, rest, place, node)

    def imported(self, holder, head, rest, place, node):
        """What a name of a use line is, of a specs file or of a source."""
        if head in holder.names:
            return self.outside(*holder.names[head], place, node)
        if head in holder.operators:
            return self.outside(*holder.operators[head], place, node)
        if head in holder.aliases and rest:
            return self.outside(*holder.aliases[head], rest.split(".")[0], place, node)
        raise Fault(f"{place}: no use line and no definition of this file has the name {head}")

    def outside(self, crate, module, name, place, node):
        if crate not in self.crates:
            node.kit.setdefault(f"{crate}.{module}".removesuffix("."), set()).add(name)
            return None
        part, _, rest = module.partition(".")
        if part != "specs":
            raise Fault(f"{place}: {name} is of {crate}.{module}, and no spec")
        if rest.startswith("declared."):
            return self.declared(crate, rest.split(".")[1:], name, place)
        return self.defined(crate, rest, name, place, node)

    def defined(self, crate, module, name, place, node):
        specs = self.specs_of(crate, module)
        if specs is None:
            raise Fault(f"{place}: {name} is of crates/{crate}/specs/{module}.antt, which isn't there")
        if name in specs.definitions or name in specs.members:
            return self.of_specs(specs, name)
        if name in specs.names:
            return self.outside(*specs.names[name], place, node)
        raise Fault(f"{place}: {specs.path} has no definition {name}")

    def looked_up(self, holder, word):
        """The definition that a name is in this file, with its own file; or (None, None)."""
        head, _, rest = word.partition(".")
        if isinstance(holder, Specs) and head in holder.definitions:
            return holder, holder.definitions[head]
        crate, module, name = holder.names.get(head) or (*holder.aliases.get(head, ("", "")), rest)
        if crate not in self.crates or not module.startswith("specs.") or module.startswith("specs.declared"):
            return None, None
        specs = self.specs_of(crate, module.partition(".")[2])
        return (specs, specs.definitions[name]) if specs and name in specs.definitions else (None, None)

    def declared(self, crate, path, name, place):
        """A type of the language that specs speak of, by its name or one of its variants."""
        owner = path[-2] if path[-1].startswith("The") and len(path) > 1 else path[-1]
        item = self.find(crate, owner, "types", place)
        if path[-1] in (owner, "TheVariants") and not re.search(rf"\b{re.escape(name)}\b", item.text()):
            raise Fault(f"{place}: {item.path}: {owner} has no {name}")
        return self.of_type(item)

    def of_type(self, item):
        """A type as it is written."""

        def fill(node):
            bounds = bounds_of(generics_of(item))
            if item.kind == "struct":
                self.add_fields(node, item, fields_of(item), bounds)
            else:
                self.add_types(node, item.source, body_of(item), bounds, f"{item.path}:{item.line}")

        return item and self.node(("type", item.path, item.name), item.name, item, item.size(), item.about, item.source.crate, fill)

    def seen(self, item):
        """What contracts see of a type: its view, or else the type itself."""
        model = self.model_of(item)
        parts = [it for it in model.members if it.kind == "ghost" and it.name in ("Value", "view")] if model else []
        if not parts:
            return self.of_type(item)

        def fill(node):
            bounds = bounds_of(model.generics)
            for it in parts:
                self.add_words(node, it.value(), Context(model.source, model, {}, bounds))
            self.add_fields(node, item, fields_in(item, [it for it in parts if it.name == "view"]), bounds)

        return self.node(("view", item.path, item.name), item.name + "::view", parts[0], sum(it.size() for it in parts), item.about, item.source.crate, fill)

    def add_fields(self, node, item, fields, bounds):
        """The types of fields; of one that is only proved of or about, what it is said to be."""
        bounds, types = bounds | bounds_of(generics_of(item)), {name: text for _, name, text in fields_of(item)}
        for ghost, _, text in fields:
            if ghost:
                begin = text.index("{")
                words = words_of([(item.line, text[begin + 1 : closing_brace(text, begin)])])
                self.add_words(node, words, Context(item.source, None, types, bounds))
            else:
                self.add_types(node, item.source, text, bounds, f"{item.path}:{item.line}")

    def add_types(self, node, source, text, bounds, place):
        for item in self.named_types(source, text, bounds, place)[0]:
            self.add(node, self.seen(item))

    def named_types(self, source, text, bounds, place):
        """The types that a text names, and the parameters; of a type of this repository only those arguments that its view reads."""
        items, names, at = [], set(), 0
        for found in re.finditer(r"\b([A-Z]\w*)(?:::\w+)?", text):
            if found.start() < at or found[1] == "Self":
                continue
            if found[1] in bounds:
                names.add(found[1])
                continue
            item, end = self.named_in(source, found[1], "types", place), found.end()
            if item is None:
                continue
            items.append(item)
            if text[end : end + 1] == "<":
                at = closing_angle(text, end) + 1
                for argument in self.read_arguments(item, split_commas(text[end + 1 : at - 1])):
                    more, others = self.named_types(source, argument, bounds, place)
                    items, names = items + more, names | others
        return items, names

    def read_arguments(self, item, arguments):
        """Those arguments of a type that what contracts see of it reads."""
        parameters = [part.split(":")[0].split("=")[0].strip() for part in split_commas(generics_of(item))]
        return [argument for name, argument in zip(parameters, arguments) if name in self.read_parameters(item)]

    def read_parameters(self, item):
        if item not in self.parameters:
            self.parameters[item] = set()
            model = self.model_of(item)
            parts = [it for it in model.members if it.name == "view"] if model else []
            texts = [text for ghost, _, text in fields_in(item, parts) if not ghost] if item.kind == "struct" else [body_of(item)]
            for text in texts:
                found = self.named_types(item.source, text, bounds_of(generics_of(item)), f"{item.path}:{item.line}")[1]
                self.parameters[item] = self.parameters[item] | found
        return self.parameters[item]

    # CONTRACTS

    def add_words(self, node, words, context):
        for word, line in free_names(plain(words)):
            self.add_name(node, word, f"{context.source.path}:{line}", context)

    def add_name(self, node, word, place, context):
        head, _, rest = word.partition(".")
        source, inside = context.source, context.inside
        if head in ("self", "Self"):
            if inside is not None and inside.kind == "impl":
                self.add(node, self.seen(self.named_in(source, inside.name, "types", place)))
        elif head in context.types:
            self.add_types(node, source, context.types[head], context.bounds, place)
        elif head in context.bounds and not rest:
            pass
        elif head in context.bounds:
            self.add_ghost(node, source, context.bounds[head], rest.split(".")[0], place)
        elif head in source.names or head in source.operators or head in source.aliases:
            self.add(node, self.imported(source, head, rest, place, node))
        elif self.own_ghost(inside, head):
            self.add(node, self.own_ghost(inside, head))
        elif head in source.rust or head in source.types or head in source.traits:
            self.add_rust(node, source, head, rest, place)
        elif head in PRELUDE:
            node.kit.setdefault("std", set()).add(head)
        else:
            raise Fault(f"{place}: no use line, parameter or type of this file has the name {head}")

    def add_rust(self, node, source, head, rest, place):
        """A type's variant, or a trait's ghost item."""
        path = source.rust.get(head, [source.crate, head])
        if path[0] in self.crates and self.is_trait(path):
            self.add_ghost(node, source, [head], rest.split(".")[0], place)
            return
        item = self.named_in(source, head, "types", place) if path[0] in self.crates else None
        if item is None:
            node.kit.setdefault(path[0], set()).add(head)
        elif rest and not re.search(rf"\b{re.escape(rest.split('.')[0])}\b", item.text()):
            raise Fault(f"{place}: {item.path}: {head} has no {rest}")
        else:
            self.add(node, self.of_type(item))

    def is_own_trait(self, source, name):
        path = source.rust.get(name, [source.crate, name])
        return path[0] in self.crates and self.is_trait(path)

    def is_trait(self, path):
        return any(path[-1] in source.traits for source in self.sources_of(path[0]))

    def add_ghost(self, node, source, traits, name, place):
        """A ghost item of one of these traits, of the repository or of the kit."""
        found, foreign = self.ghost_of([(source, trait) for trait in traits], name, place)
        if found:
            self.add(node, self.of_ghost(*found))
        elif foreign:
            node.kit.setdefault("std", set()).add(f"{foreign[0]}.{name}")
        else:
            raise Fault(f"{place}: no trait of {', '.join(traits)} has a ghost item {name}")

    def ghost_of(self, left, name, place):
        """The trait with a ghost item of that name among these and those above them, and the item, or None; and the traits of the kit."""
        foreign = []
        while left:
            source, trait = left.pop(0)
            item = self.named_in(source, trait, "traits", place) if self.is_own_trait(source, trait) else None
            found = [it for it in item.members if it.kind == "ghost" and it.name == name] if item else []
            if found:
                return (item, found[0]), foreign
            left += [(item.source, above) for above in item.above] if item else []
            foreign += [] if item or trait in PRELUDE else [trait]
        return None, foreign

    def own_ghost(self, inside, name):
        """A ghost item that a trait or an impl of it names without more."""
        trait = inside.trait if inside is not None and inside.kind == "impl" else inside.name if inside is not None else None
        if trait is None:
            return None
        found, _ = self.ghost_of([(inside.source, trait)], name, f"{inside.path}:{inside.line}")
        return self.of_ghost(*found) if found else None

    def trait_of(self, impl):
        return self.named_in(impl.source, impl.trait, "traits", f"{impl.path}:{impl.line}") if self.is_own_trait(impl.source, impl.trait) else None

    def of_ghost(self, trait, item):
        """A ghost item as a trait declares it."""

        def fill(node):
            self.add_words(node, item.value(), Context(trait.source, trait, {}, bounds_of(trait.generics)))

        return self.node(("ghost", trait.path, trait.name, item.name), f"{trait.name}::{item.name}", item, item.size(), item.about, trait.source.crate, fill)

    def of_given(self, impl, item):
        """A ghost item as an impl gives it."""
        declared = next((it for it in self.trait_of(impl).members if it.kind == "ghost" and it.name == item.name), None)

        def fill(node):
            self.add_words(node, item.value(), Context(impl.source, impl, {}, bounds_of(impl.generics)))
            if declared is None or any(word == "Self" for word, _ in declared.value()):
                self.add_owner(node, impl, item)

        name = f"{impl.name} as {impl.trait}::{item.name}"
        about = item.about or (declared.about if declared else "")
        return self.node(("given", impl.path, impl.name, impl.trait, item.name), name, item, item.size(), about, impl.source.crate, fill)

    def add_owner(self, node, impl, item):
        """What contracts see of the type of an impl; without a view those of its fields that the item reads."""
        owner = self.named_in(impl.source, impl.name, "types", f"{impl.path}:{impl.line}")
        seen = self.seen(owner)
        if seen.key[0] == "view":
            self.add(node, seen)
        else:
            self.add_fields(node, owner, fields_in(owner, [item]), bounds_of(impl.generics))

    def add_clauses(self, node, function, inside):
        """What the clauses of a function name."""
        signature = Signature(function)
        context = Context(function.source, inside, signature.types, signature.bounds)
        for _, _, words, _ in function.clauses():
            self.add_words(node, words, context)


def plain(words):
    """The words, with ⟦<T as Trait>⟧.item as Trait.item."""
    text = " ".join(word for word, _ in words)
    return [(word, words[0][1]) for word in QUALIFIED.sub(r"\1.", text).split()] if "⟦" in text else words


def fields_of(item):
    """(ghost or not, name, type) of each field of a struct; one without names has one field, its whole."""
    text = body_of(item)
    found = [FIELD.fullmatch(part) for part in split_commas(text[text.find("{") + 1 : text.rfind("}")])]
    return [(bool(it[1]), it[2], it[3]) for it in found if it] or [(False, "", text)]


def fields_in(item, parts):
    """The fields that these ghost items read, or all if they read none by name."""
    read = {word.split(".")[1] for it in parts for word, _ in it.value() if re.match(r"[a-z]\.[a-z]", word)}
    return [it for it in fields_of(item) if it[1] in read or not read]


def body_of(item):
    """What a type is made of, without its own name and those of its variants."""
    text = after_name(item)
    text = text[closing_angle(text, 0) + 1 :] if text.startswith("<") else text
    return re.sub(r"^\s*[A-Z]\w*(?=\s*[({,=]|\s*$)", "", text, flags=re.M) if item.kind == "enum" else text


def generics_of(item):
    """What stands between < and > after a type's name."""
    text = after_name(item)
    return text[1 : closing_angle(text, 0)] if text.startswith("<") else ""


def after_name(item):
    """The text of a type after its name, without attributes."""
    return re.split(rf"\b(?:struct|enum|type|const|static) {item.name}\b", re.sub(r"#\[.*?\]", "", item.text()), maxsplit=1)[1]
