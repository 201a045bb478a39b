"""What random rules mean: what matches, what expressions give, and what a term does by its rules."""
import collections

# The extractors, by the number of their results.
EXTRACTORS = {"always": 1, "perhaps": 1, "both": 2, "tested": 0}
INFALLIBLE = ["always", "both", "told"]
# The internal extractors by their parameters; each template may use those that stand behind it here.
PARAMETERS = {"pair": "pq", "single": "p", "fixed": ""}
# The pure constructors, which have one argument, and the others, which have two.
PURE = ["told", "guessed"]
IMPURE = ["whole", "part"]
# What answers by a list that its one argument tells: an extractor and a pure constructor.
LISTS = ["items", "near"]

# How many items are chosen at most, in a reading of a term's rules at some arguments.
MOST_CHOSEN = 100_000

# What patterns and expressions are read in: what functions answer, the templates, and the items that were chosen so far.
World = collections.namedtuple("World", "answers templates taken")
# What stands for the parameters of a template where it is used, and what stands there for those of another template.
Given = collections.namedtuple("Given", "patterns outer")
# The variables, each with its value and the path that gives it, and the item that is chosen of each list, by the list's path.
State = collections.namedtuple("State", "names chosen")


class TooWide(Exception):
    """More items are to be chosen than a reading goes through."""


def chosen_items(items, path, chosen, world):
    """The items that may be chosen of a list, each with all that is chosen then."""
    if path in chosen:
        yield chosen[path], chosen
        return
    for item in items:
        world.taken.append(item)
        if len(world.taken) > MOST_CHOSEN:
            raise TooWide
        yield item, {**chosen, path: item}


def meets(name, value, path, state, world, given):
    """The states in which a variable has a value; or what is given for a parameter matches it."""
    if given:
        yield from matches(given.patterns[name], value, path, state, world, given.outer)
    elif name not in state.names:
        yield State({**state.names, name: (value, path)}, state.chosen)
    elif state.names[name][0] == value:
        yield state


def matches(pattern, value, path, state, world, given=None):
    """The states in which a pattern matches a value."""
    form, *parts = pattern
    if form == "wildcard" or form == "constant" and parts[0] == value:
        yield state
    elif form == "variable":
        yield from meets(parts[0], value, path, state, world, given)
    elif form == "at":
        for named in [state] if parts[0] == "_" else meets(parts[0], value, path, state, world, given):
            yield from matches(parts[1], value, path, named, world, given)
    elif form == "and":
        yield from all_match([(part, value, path) for part in parts[0]], state, world, given)
    elif form == "used":
        inner = Given(dict(zip(PARAMETERS[parts[0]], parts[1])), given)
        yield from matches(world.templates[parts[0]], value, path, state, world, inner)
    elif form == "opened":
        yield from opened(parts[0], parts[1], value, (parts[0], path), state, world, given)


def opened(name, parts, value, path, state, world, given):
    """The states in which what an extractor gives matches patterns."""
    found = world.answers[name][min(value, 3)]
    if name in LISTS:
        for item, chosen in chosen_items(found, path, state.chosen, world):
            yield from matches(parts[0], item, path, State(state.names, chosen), world, given)
    elif found is not None:
        yield from all_match([(part, result, (path, place)) for place, (part, result) in enumerate(zip(parts, found))], state, world, given)


def all_match(parts, state, world, given=None):
    """The states in which all patterns match, each its value."""
    if not parts:
        yield state
        return
    for matched in matches(*parts[0], state, world, given):
        yield from all_match(parts[1:], matched, world, given)


def values(tree, state, world, calls):
    """What an expression may give: a value, its path, and what is chosen; where it calls, in order.

    Without a list of calls only what needs no call of an impure function is chosen, and what needs one has no value.
    """
    form, *parts = tree
    if form == "constant":
        yield parts[0], ("constant", parts[0]), state.chosen
    elif form == "variable":
        yield *state.names[parts[0]], state.chosen
    elif form == "let":
        yield from let(parts[0], parts[1], state, world, calls)
    else:
        for given, chosen in all_values(parts[1], state, world, calls):
            yield from called(tree, given, chosen, world, calls)


def let(bindings, body, state, world, calls):
    if not bindings:
        yield from values(body, state, world, calls)
        return
    (name, bound), *rest = bindings
    for value, path, chosen in values(bound, state, world, calls):
        yield from let(rest, body, State({**state.names, name: (value, path)}, chosen), world, calls)


def all_values(trees, state, world, calls):
    """What several expressions may give, one after the other, each with its path, and what is chosen."""
    if not trees:
        yield [], state.chosen
        return
    for value, path, chosen in values(trees[0], state, world, calls):
        for more, last in all_values(trees[1:], State(state.names, chosen), world, calls):
            yield [(value, path), *more], last


def called(tree, given, chosen, world, calls):
    """What a call may give."""
    _, name, _ = tree
    is_pure = name in PURE or name in LISTS
    if calls is None and (not is_pure or None in [value for value, _ in given]):
        yield None, None, chosen
        return
    if is_pure:
        path = (name, *(at for _, at in given))
        answer = world.answers[name][min(given[0][0], 3)]
        if name not in LISTS and answer is not None:
            answer = answer[0]
    else:
        path = ("call", id(tree))
        turn = sum(other == name for other, _ in calls)
        calls.append((name, [value for value, _ in given]))
        answer = world.answers[name][min(turn, len(world.answers[name]) - 1)]
    if isinstance(answer, list):
        yield from ((item, path, more) for item, more in chosen_items(answer, path, chosen, world))
    elif answer is not None:
        yield answer, path, chosen


def conditions_hold(conditions, state, world):
    """The states in which all conditions hold."""
    if not conditions:
        yield state
        return
    pattern, tested = conditions[0]
    for value, path, chosen in values(tested, state, world, []):
        for matched in matches(pattern, value, path, State(state.names, chosen), world):
            yield from conditions_hold(conditions[1:], matched, world)


def matched(rule, arguments, world):
    """The states in which a rule matches."""
    _, patterns, conditions, _ = rule
    parts = [(pattern, value, ("argument", place)) for place, (pattern, value) in enumerate(zip(patterns, arguments))]
    for state in all_match(parts, State({}, {}), world):
        yield from conditions_hold(conditions, state, world)


def first(rules, arguments, world):
    """The result of the highest rule that matches, or None, and its calls."""
    calls = []
    for rule in sorted(rules, key=lambda rule: -rule[0]):
        state = next(matched(rule, arguments, world), None)
        if state:
            return next((value for value, _, _ in values(rule[3], state, world, calls)), None), calls
    return None, calls


def several(rules, arguments, world):
    """The results of all rules, for all that may be chosen, and their calls: what needs no impure call is chosen before the first one."""
    results, calls = [], []
    for rule in rules:
        for state in matched(rule, arguments, world):
            for _, _, chosen in values(rule[3], state, world, None):
                results += [value for value, _, _ in values(rule[3], State(state.names, chosen), world, calls)]
    return results, calls
