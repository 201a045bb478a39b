"""How often the rules of a term may ask external functions that answer by cases: once for each path, rule by rule."""
import itertools

from lines import HERE, lists


def rule_parts(form):
    """A rule without its name and priority: head, conditions and right side."""
    return form[next(place for place, part in enumerate(form) if isinstance(part, list)):]


def is_name(form):
    """Whether a pattern or an expression is a variable."""
    return isinstance(form, str) and (form[0].isalpha() or form[0] == "_" and form != "_") and form not in ("true", "false")


class Rules:
    """The declarations, templates and rules of one file."""

    def __init__(self, source):
        self.terms, self.made, self.pure, self.several, self.constants, self.converters, self.rules = {}, set(), set(), set(), {}, {}, []
        self.templates = {}
        for form in lists((HERE / source).read_text()):
            self.note(form)

    def note(self, form):
        """Notes a form: the types of a term's arguments and of its result, what is pure, `multi` or made, or a rule."""
        if form[0] == "decl":
            name = next(place for place, part in enumerate(form) if isinstance(part, list)) - 1
            self.terms[form[name]] = form[name + 1], form[name + 2]
            if "pure" in form[1:name]:
                self.pure.add(form[name])
            if "multi" in form[1:name]:
                self.several.add(form[name])
        elif form[:2] == ["extern", "const"]:
            self.constants[form[2]] = form[3]
        elif form[0] == "extractor":
            self.templates[form[1][0]] = form[1][1:], next(parted(form[2:]))
        elif form[0] == "convert":
            self.converters[form[1], form[2]] = form[3]
        elif form[0] == "type":
            self.note_type(form[1], form[-1])
        elif form[0] == "rule":
            self.rules.append(rule_parts(form))

    def note_type(self, name, body):
        """Notes what makes values of a type."""
        kind, *parts = body
        shapes = {name: parts} if kind == "struct" else {}
        if kind == "enum":
            shapes = {f"{name}.{part if isinstance(part, str) else part[0]}": part[1:] if isinstance(part, list) else [] for part in parts}
        for term, fields in shapes.items():
            self.made.add(term)
            self.terms[term] = [field[1] if isinstance(field, list) else field for field in fields], name

    def most_asked(self, term):
        """How often a run of the term asks at most."""
        return sum(len(Paths(self, *rule).asked) for rule in self.rules if rule[0][0] == term)


class Paths:
    """What one rule asks: pairs of a function's term and the paths that it is asked at."""

    def __init__(self, rules, head, *rest):
        self.rules, self.asked, self.names, self.unshared = rules, set(), {}, itertools.count()
        for place, (ty, pattern) in enumerate(zip(rules.terms[head[0]][0], parted(head[1:]))):
            self.match(pattern, ty, ("argument", place))
        *conditions, right = rest
        for condition in conditions:
            path, ty = self.value(condition[-1], None)
            if condition[0] == "if-let":
                self.match(next(parted(condition[1:-1])), ty, path)
        self.value(right, rules.terms[head[0]][1])

    def ask(self, term, *paths):
        self.asked.add((term, *paths))
        return term, *paths

    def bind(self, name, ty, path, given):
        """Binds a variable; or a parameter of a template stands there, and what is given for it is matched."""
        if given is None:
            self.names.setdefault(name, (path, ty))
        else:
            arguments, outer = given
            self.match(arguments[name], ty, path, outer)

    def match(self, pattern, ty, path, given=None):
        """Goes through a pattern of a type at a path; in a template parameters are given, with what was given where it is used."""
        names, form = pattern
        for name in [*names, form] if is_name(form) else names:
            self.bind(name, ty, path, given)
        if isinstance(form, str):
            return
        if form[0] == "and":
            for part in parted(form[1:]):
                self.match(part, ty, path, given)
            return
        fields, own = self.rules.terms[form[0]]
        if own != ty:
            path = self.ask(self.rules.converters[own, ty], path), 0
        if form[0] in self.rules.templates:
            params, template = self.rules.templates[form[0]]
            self.match(template, own, path, (dict(zip(params, parted(form[1:]))), given))
            return
        whole = (form[0], path) if form[0] in self.rules.made else self.ask(form[0], path)
        for place, (field, part) in enumerate(zip(fields, parted(form[1:]))):
            self.match(part, field, (whole, place), given)

    def value(self, form, wanted):
        """The path and the type of an expression's value, where a type is wanted that one."""
        path, ty = self.own_value(form, wanted)
        if wanted in (None, ty):
            return path, ty
        return self.call(self.rules.converters[ty, wanted], [path]), wanted

    def own_value(self, form, wanted):
        """The path and the type of an expression's value, before it is converted."""
        if is_name(form):
            return self.names[form]
        if isinstance(form, str):
            return form, "bool" if form in ("true", "false") else self.rules.constants.get(form, wanted)
        if form[0] == "let":
            return self.let(form[1], form[2], wanted)
        types, ty = self.rules.terms[form[0]]
        return self.call(form[0], [self.value(part, own)[0] for part, own in zip(form[1:], types)]), ty

    def let(self, bindings, body, wanted):
        outer = dict(self.names)
        for name, ty, value in bindings:
            self.names[name] = self.value(value, ty)
        path, ty = self.value(body, wanted)
        self.names = outer
        return path, ty

    def call(self, term, paths):
        """The path of a call's value; calls that aren't pure have one each."""
        if term in self.rules.made:
            return term, *paths
        return self.ask(term, *paths) if term in self.rules.pure else ("call", next(self.unshared))


def parted(words):
    """The patterns of a list, each as the names that `@` binds to it and what is behind them."""
    names, words = [], list(words)
    for place, word in enumerate(words):
        if word == "@":
            continue
        if words[place + 1:place + 2] == ["@"]:
            names.append(word)
        else:
            yield names, word
            names = []
