"""Moves from one variable into another, left out where nothing can tell. MIR has many, and each is a word of stack where a C compiler
is told to do nothing about it, and of a record often a copy where it is told to do much.

A variable that is set once, to what another or a part of it holds, and is read only in what follows, where the other is not set, is that
other. One that is set once, and read only by the next statement, which sets another to it, is that other; and what one is set to that is
read only by the next statement stands there. One that nothing reads but a move into another, which nothing reads or sets between, is that
other: MIR reads no variable that was not set on the way, in this turn of a loop as in the first. None of this is so of a variable whose
address is taken, nor is a parameter or the result left out. A variable is a local, or one of the two of a slice.
"""
from collections import Counter

from printer.constants import operands, target, through
from printer.mir import arms, chain, head, items, statements
from printer.slices import half, is_slice
from printer.types import are_alike


def body_of(forms):
    """A list of statements as a body."""
    body = forms[-1] if forms else "skip"
    for form in reversed(forms[:-1]):
        body = ["seq", form, body]
    return body


def within(form, change):
    """A statement with each body in it changed."""
    word = head(form)
    if word in ("block", "loop"):
        return [word, change(form[1])]
    if word == "if":
        return ["if", form[1], change(form[2]), change(form[3])]
    if word != "switch":
        return form
    last = "noDefault"
    for keys, body in reversed(arms(form[2])):
        last = ["arm", chain(keys), change(body), last] if keys else ["default", change(body)]
    return ["switch", form[1], last]


def inner(form):
    """A statement and those in it."""
    bodies = []
    within(form, lambda body: bodies.append(body) or body)
    return [form] + [one for body in bodies for part in statements(body) for one in inner(part)]


def flat(forms):
    """Operands, of a pair its two, and of what is made in place its parts."""
    parts = {"slice": lambda form: form[1:], "made": lambda form: flat(items(form[2][1]))}
    return [x for form in forms for x in (parts[head(form)](form) if head(form) in parts else [form])]


def replaced(form, old, new):
    """A form with an operand put for another."""
    if form == old:
        return new
    return [replaced(part, old, new) for part in form] if isinstance(form, list) else form


class Moves:
    def __init__(self, kinds, parameters, types, kept):
        """`kept` are the locals that stay, whatever is known of them."""
        self.kinds, self.parameters, self.types, self.kept = kinds, parameters, types, kept

    def without(self, body):
        """A body in which such moves are left out; a slice that a call gets is a pair, so that each half can be another's."""
        shorter = self.paired(body)
        while shorter is not None:
            body = shorter
            self.count(body)
            shorter = self.shorter(body)
        return body

    def paired(self, body):
        forms = []
        for form in statements(body):
            if head(form) == "call":
                form = ["call", form[1], chain([self.pair(x) for x in items(form[2])]), form[3]]
            forms.append(within(form, self.paired))
        return body_of(forms)

    def pair(self, operand):
        if head(operand) == "copy" and operand[1][2] == "lnil" and is_slice(self.kinds[operand[1][1]]):
            return ["slice"] + [["copy", half(operand[1], i)] for i in (0, 1)]
        return operand

    # ---- what a body does with each variable

    def variables(self, place):
        """The variables that a place is of: (local, which half of a slice)."""
        local, steps = place[1], items(place[2])
        if not is_slice(self.kinds[local]):
            return [(local, None)]
        return [(local, steps[0][1])] if steps else [(local, 0), (local, 1)]

    def read(self, form):
        """The places that a statement itself reads."""
        word = head(form)
        if word in ("if", "switch"):
            return [form[1][1]] if head(form[1]) == "copy" else []
        if word not in ("assign", "call"):
            return []
        places = [x[1] for x in flat(operands(form)) if head(x) == "copy"]
        behind = [target(form)] + ([form[2][1]] if word == "assign" and form[2][0] == "addrOf" else [])
        return places + [place for place in behind if through(place)]

    def set(self, form):
        """The variables that a statement itself sets."""
        if head(form) not in ("assign", "call", "lendStatic"):
            return []
        to = form[1] if head(form) == "lendStatic" else target(form)
        return [] if through(to) else self.variables(to)

    def count(self, body):
        self.sets, self.reads, self.fixed = Counter(), Counter(), set(self.kept)
        for form in [one for part in statements(body) for one in inner(part)]:
            self.sets.update(self.set(form))
            for place in self.read(form):
                self.reads.update(self.variables(place))
                self.fixed.update([place[1]] if len(self.variables(place)) > 1 else [])
            if head(form) == "assign" and form[2][0] == "addrOf" and not through(form[2][1]):
                self.fixed.add(form[2][1][1])

    def is_whole(self, place):
        """Whether a place is a variable, and may be left out or be put for one."""
        steps = items(place[2])
        if place[1] in self.fixed or self.types.is_nothing(self.types.at(self.kinds[place[1]], steps)):
            return False
        return len(steps) == 1 if is_slice(self.kinds[place[1]]) else not steps

    def is_part(self, place):
        """Whether a place is a part of a variable, and may be put for one."""
        if place[1] in self.fixed or is_slice(self.kinds[place[1]]) or through(place):
            return False
        return not self.types.is_nothing(self.types.at(self.kinds[place[1]], items(place[2])))

    def move(self, form):
        """The place that a statement sets to what another holds, and that other; or None."""
        if head(form) != "assign":
            return None
        to, value, source = form[1], form[2], None
        if value[0] == "rvOpd" and head(value[1]) == "copy":
            source = value[1][1]
        elif value[0] == "addrOf" and through(value[1]) and items(value[1][2])[-1][0] == "deref":
            source = ["place", value[1][1], chain(items(value[1][2])[:-1])]
        if not source or not self.is_whole(to) or not (self.is_whole(source) or self.is_part(source)):
            return None
        return (to, source) if are_alike(*[self.types.at(self.kinds[place[1]], items(place[2])) for place in (to, source)]) else None

    def goes(self, place):
        """Whether a variable is set once, and is neither parameter nor result."""
        return place[1] > self.parameters and self.sets[self.variables(place)[0]] == 1

    # ---- a move less

    def shorter(self, body):
        """A body with one move less, or None."""
        forms = statements(body)
        for i, form in enumerate(forms):
            found = self.move(form)
            rules = [self.named_alike, self.aimed_at, self.merged] if found else []
            less = next((less for rule in rules if (less := rule(forms, i, *found))), None) or self.made_in_place(forms, i)
            changed = None if less else self.shorter_within(form)
            if less or changed:
                return body_of(less or forms[:i] + [changed] + forms[i + 1 :])
        return None

    def named_alike(self, forms, i, to, source):
        """The statements with what a variable is set to here put for it, or None."""
        if not self.goes(to) or not self.stays(to, source, forms[i + 1 :]):
            return None
        return forms[:i] + [self.put(other, to, source) for other in forms[i + 1 :]]

    def aimed_at(self, forms, i, to, source):
        """The statements of which the one before sets what this one moves into, or None."""
        if i == 0 or not self.hands_on(forms[i - 1], source):
            return None
        return forms[: i - 1] + [self.aimed(forms[i - 1], to)] + forms[i + 1 :]

    def merged(self, forms, i, to, source):
        """The statements in which all that sets a variable sets what this one moves it into, since nothing else reads it; or None."""
        if items(to[2]) or items(source[2]) or source[1] <= self.parameters or self.reads[(source[1], None)] != 1:
            return None
        one, other = (source[1], None), (to[1], None)
        first = min((k for k, form in enumerate(forms[:i]) if any(one in self.set(x) for x in inner(form))), default=i)
        between = [x for form in forms[first:i] for x in inner(form)]
        leaves = any(head(x) in ("return", "exit", "unreachable") for x in between)
        meets = any(other in self.set(x) or other in [y for place in self.read(x) for y in self.variables(place)] for x in between)
        if leaves or meets or sum(one in self.set(x) for x in between) != self.sets[one]:
            return None
        return forms[:first] + [self.put(form, source, to) for form in forms[first:i]] + forms[i + 1 :]

    def made_in_place(self, forms, i):
        """The statements of which the next has what this one sets a variable to in its place, since nothing else reads that; or None."""
        form, after = forms[i], forms[i + 1] if i + 1 < len(forms) else "skip"
        if head(form) != "assign" or head(after) not in ("assign", "call") or through(target(after)) or not self.is_whole(form[1]):
            return None
        to, value = form[1], form[2]
        if not self.goes(to) or self.reads[self.variables(to)[0]] != 1 or ["copy", to] not in flat(operands(after)):
            return None
        made = self.in_place(value, self.types.at(self.kinds[to[1]], items(to[2])))
        if made is None or (head(made) == "made" and head(after) == "assign" and after[2][0] != "aggregate"):
            return None
        return forms[:i] + [replaced(after, ["copy", to], made)] + forms[i + 2 :]

    def in_place(self, value, kind):
        """The operand that stands for what a statement sets a variable of this type to, or None."""
        if value[0] == "aggregate" and head(kind) == "tyNamed":
            return ["made", kind, value]
        if value[0] != "rvOpd" or head(value[1]) not in ("int", "copy"):
            return None
        place = value[1][1]
        if head(value[1]) == "copy" and (through(place) or not are_alike(kind, self.types.at(self.kinds[place[1]], items(place[2])))):
            return None
        return value[1]

    def shorter_within(self, form):
        """A statement with one move less in it, or None."""
        done = []

        def change(body):
            shorter = None if done else self.shorter(body)
            done.extend([] if shorter is None else [True])
            return body if shorter is None else shorter

        changed = within(form, change)
        return changed if done else None

    def stays(self, one, other, rest):
        """Whether all that reads the one is in the rest, where the other is not set."""
        (variable,), (source,) = self.variables(one), self.variables(other)
        follow = [form for part in rest for form in inner(part)]
        reads = Counter(x for form in follow for place in self.read(form) for x in self.variables(place))
        return reads[variable] == self.reads[variable] and not any(source in self.set(form) for form in follow)

    def hands_on(self, form, place):
        """Whether a statement sets a variable that nothing but the next reads."""
        sets = head(form) in ("assign", "call") and target(form) == place
        return sets and self.goes(place) and self.reads[self.variables(place)[0]] == 1

    def aimed(self, form, to):
        return ["assign", to, form[2]] if head(form) == "assign" else form[:3] + [to]

    def put(self, form, one, other):
        """A form with a variable put for another."""
        if not isinstance(form, list):
            return form
        if form[0] == "place" and form[1] == one[1] and self.variables(form) == self.variables(one):
            return ["place", other[1], chain(items(other[2]) + items(form[2])[len(items(one[2])) :])]
        return [self.put(part, one, other) for part in form]
