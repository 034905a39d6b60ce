"""MIR's types in C. A number is unsigned and of MIR's own width on every target; an array is a record of one field, so that it
is copied, passed and returned by value; an address is a byte's, since MIR counts offsets in bytes. A slice is two variables, and
two fields where it is one.

A record that rig.h declares is rig.h's, with its names, if C spells every field as MIR does. One with a size_t or an array in it
has a sister for use within, `struct inner_..`, with the same names.

An enum whose variants have no fields is its tag, one byte, as it is in memory; an array has numbers or these, for of their size alone
C and MIR agree. Any other enum is a record of its tag and the fields of its variants: where more than one has any, a union, in which
each is a record. Of two variants one may hold nothing but an enum that is its tag, as why a call was refused: then that is joined to
the tag, which is 0 for the other variant and one more than the enum it holds for this one. A record of an enum does not
lie in memory as MIR's does, and so does no record with one in it: nothing counts bytes in them. Its tag has 32 bits: of a record of
three bytes gcc makes bytes on the stack and one read of them, for which a processor waits.

A unit has one value, and so have a record of units and an address of one of these, for nothing else is read or stored there: C has
none of them. A field, a parameter or a local of such a type is left out.
"""
import re

from printer.mir import NoRule, head, items
from printer.slices import PARTS, is_slice


def record_name(kind):
    return kind[1][1].strip('"')


def symbol(name):
    """A name in C, without the types and impls of an instance."""
    tuple_of, name = re.match(r"\((,+)\)", name), name.split("<")[0]
    return f"tuple{len(tuple_of[1]) + 1}" if tuple_of else re.sub(r"\W+", "_", name)


class Names:
    """Names in C, one for each name of MIR: of those that would be alike, as instances of one function, the later have a number."""

    def __init__(self):
        self.given, self.taken = {}, set()

    def __call__(self, name):
        if name not in self.given:
            base, count = symbol(name), 1
            c_name = base
            while c_name in self.taken:
                count += 1
                c_name = f"{base}_{count}"
            self.given[name] = c_name
            self.taken.add(c_name)
        return self.given[name]


def bare(kind):
    """A type without its lifetimes."""
    if not isinstance(kind, list):
        return kind
    if kind[0] == "tyRef":
        return ["tyRef", "erased", kind[2], bare(kind[3])]
    return ["tyNamed", kind[1][1]] if kind[0] == "tyNamed" else [bare(x) for x in kind]


def are_alike(kind, other):
    """Whether two types are one, whatever their lifetimes: to C all addresses are."""
    addresses = all(head(one) in ("tyPtr", "tyRef") for one in (kind, other))
    return addresses or bare(kind) == bare(other)


class Types:
    def __init__(self, shapes, given):
        """`given` has rig.h's own records: {MIR's name: (C's name, [(C type, name, array length)])}."""
        self.shapes, self.given, self.defined = shapes, given, {}
        self.records, self.functions = Names(), Names()

    def c(self, kind):
        word = head(kind)
        if self.is_nothing(kind):
            return "void"
        if word == "tyInt" and kind[1] in (8, 16, 32, 64):
            return f"uint{kind[1]}_t"
        if word == "tyBool":
            return "bool"
        if word in ("tyPtr", "tyRef"):
            return "byte *"
        if word == "tyArray" and kind[2][1] > 0:
            return self.array(kind)
        if word == "tyNamed":
            return self.enum(kind) if self.is_enum(kind) else self.record(record_name(kind))
        raise NoRule("the type", kind)

    def array(self, kind):
        if head(kind[1]) != "tyInt" and not self.is_tag(kind[1]):
            raise NoRule("an array of", kind[1])
        element, length = self.c(kind[1]), kind[2][1]
        return self.define(f"u{element[4:-2]}x{length}", [f"{element} e[{length}]"])

    def define(self, name, fields, whole=""):
        note = f" /* {whole} */" if "<" in whole else ""
        text = f"struct {name} {{ {'; '.join(fields)}; }};{note}"
        if self.defined.setdefault(name, text) != text:
            raise NoRule("two types of one name in C,", name)
        return f"struct {name}"

    def declared(self, kind, name):
        """The variables or fields of a type as (C type, name)."""
        if self.is_nothing(kind):
            return []
        if is_slice(kind):
            return [(c, f"{name}_{part}") for c, part in zip(("byte *", "uint64_t "), PARTS)]
        c = self.c(kind)
        return [(c if c.endswith("*") else f"{c} ", name)]

    def record(self, name):
        c_name, spelled = self.given.get(name, ("", None))
        if spelled and self.agrees(name):
            return f"struct {c_name}"
        fields = [f"{c}{part}" for field, kind in self.fields(name) for c, part in self.declared(kind, field)]
        return self.define(f"inner_{c_name}" if spelled else self.records(name), fields, name)

    def agrees(self, name):
        """Whether C spells each field of a record of rig.h as MIR does."""
        kinds = [kind for _, kind in self.fields(name)]
        return all(length is None and self.c(kind) == c for kind, (c, _, length) in zip(kinds, self.given[name][1]))

    def fields(self, name):
        """The fields of a record: [(name, type)]. Of one that rig.h declares each is a number or an array of these."""
        if head(self.shape(name)) != "fields":
            raise NoRule("the fields of", name)
        kinds = items(self.shape(name)[1])
        names = [field for _, field, _ in self.given[name][1]] if name in self.given else [f"f{i}" for i in range(len(kinds))]
        numbers = all(head(kind[1] if head(kind) == "tyArray" else kind) == "tyInt" for kind in kinds)
        if len(names) != len(kinds) or (name in self.given and not numbers):
            raise NoRule("the fields of", name)
        return list(zip(names, kinds))

    def shape(self, name):
        if name not in self.shapes:
            raise NoRule("a type that is not given,", name)
        return self.shapes[name]

    def is_nothing(self, kind):
        """Whether a type has one value: the unit, a record of nothing else, or the address of one of these."""
        if head(kind) == "tyRef":
            return self.is_nothing(kind[3])
        if head(kind) == "tyNamed" and head(self.shape(record_name(kind))) == "fields":
            return all(map(self.is_nothing, items(self.shape(record_name(kind))[1])))
        return kind == "tyUnit"

    # ---- enums

    def is_enum(self, kind):
        return head(kind) == "tyNamed" and head(self.shape(record_name(kind))) == "variants"

    def is_tag(self, kind):
        """Whether a type is an enum whose variants have no fields."""
        return self.is_enum(kind) and not any(self.variants(kind))

    def variants(self, kind):
        """The fields' types of each variant of an enum; MIR counts a variant's fields from 1, after the tag."""
        found = [items(row) for row in items(self.shape(record_name(kind))[1])]
        if not 2 <= len(found) <= 256:
            raise NoRule("the variants of", record_name(kind))
        return found

    def enum(self, kind):
        name = record_name(kind)
        if name in self.given:
            raise NoRule("an enum that rig.h declares,", name)
        if self.is_tag(kind):
            return "uint8_t"
        rows = self.laid(kind)
        inside = [f"struct {{ {'; '.join(fields)}; }} variant{k};" for k, fields in enumerate(rows) if fields]
        fields = [f"union {{ {' '.join(inside)} }} u"] if self.is_united(kind) else [field for fields in rows for field in fields]
        return self.define(self.records(name), ["uint32_t tag"] + fields, name)

    def laid(self, kind):
        """The fields of each variant in C; of one that is joined to the tag none."""
        joined = self.joined(kind)
        rows = [[] if k == joined else row for k, row in enumerate(self.variants(kind))]
        return [[f"{c}{part}" for i, field in enumerate(row, 1) for c, part in self.declared(field, f"f{i}")] for row in rows]

    def is_united(self, kind):
        """Whether the fields of an enum's variants lie in a union."""
        return sum(bool(fields) for fields in self.laid(kind)) > 1

    def joined(self, kind):
        """The variant that is joined to the tag, or None."""
        rows = self.variants(kind)
        found = [k for k, row in enumerate(rows) if len(row) == 1 and self.way_to_tag(row[0]) is not None]
        return found[-1] if len(rows) == 2 and found else None

    def way_to_tag(self, kind):
        """The records from a type down to an enum that is its tag, each the only field of the one before; or None."""
        if self.is_tag(kind):
            return []
        if head(kind) != "tyNamed" or self.is_enum(kind) or len(self.fields(record_name(kind))) != 1:
            return None
        below = self.way_to_tag(self.fields(record_name(kind))[0][1])
        return None if below is None else [kind] + below

    def tag(self, kind, variant):
        """The tag of a variant that is not joined to it, and of one that is the least."""
        return variant if self.is_tag(kind) or self.joined(kind) is None else int(variant == self.joined(kind))

    def test(self, kind, text, variant):
        """Whether a tag is a variant's, in C."""
        joined = not self.is_tag(kind) and variant == self.joined(kind)
        return f"{text} != 0u" if joined else f"{text} == {self.tag(kind, variant)}u"

    def field_of_variant(self, kind, variant, field):
        """The type of a variant's field; field 0 is the tag."""
        rows = self.variants(kind)
        if variant >= len(rows) or field > len(rows[variant]) or (field == 0 and variant != 0):
            raise NoRule(f"the field {field} of variant {variant} of", kind)
        return rows[variant][field - 1] if field > 0 else ["tyInt", 8]

    # ---- places

    def after(self, kind, step):
        """The type of what a step leads to. A variant is no type, and is what a field step leads on from."""
        if step[0] == "deref" and head(kind) in ("tyPtr", "tyRef"):
            return step[1]
        if step[0] == "variant" and self.is_enum(kind):
            return ["variant", kind, step[1]]
        if step[0] == "field" and head(kind) == "variant":
            return self.field_of_variant(kind[1], kind[2], step[1])
        if step[0] == "field" and is_slice(kind) and step[1] < 2:
            return items(kind[2])[step[1]]
        if step[0] == "field" and head(kind) == "tyNamed" and step[1] < len(self.fields(record_name(kind))):
            return self.fields(record_name(kind))[step[1]][1]
        raise NoRule("the step", step)

    def at(self, kind, steps):
        """The type of what these steps lead to."""
        for step in steps:
            kind = self.after(kind, step)
        return kind

    # ---- static memory

    def static(self, kind, form):
        """What static memory holds of a type: a number, or a tuple of parts."""
        word = head(form)
        if word == "int" and kind == ["tyInt", form[1]] and form[2] < 2 ** form[1]:
            return form[2]
        if word == "ints" and head(kind) == "tyArray" and kind[1] == ["tyInt", form[1]]:
            return (tuple(self.static(kind[1], ["int", form[1], n]) for n in self.hold_length(kind, items(form[2]))),)
        if word == "parts" and head(kind) == "tyArray":
            return (tuple(self.static(kind[1], part) for part in self.hold_length(kind, items(form[1]))),)
        if word == "parts" and self.is_enum(kind):
            tags = items(form[1])
            if self.is_tag(kind) and tags in [[["int", 8, tag]] for tag in range(len(self.variants(kind)))]:
                return tags[0][2]
        elif word == "parts" and head(kind) == "tyNamed":
            fields, found = self.fields(record_name(kind)), items(form[1])
            if len(fields) == len(found) and not any(self.is_nothing(field) for _, field in fields):
                return tuple(self.static(field, part) for (_, field), part in zip(fields, found))
        raise NoRule("static memory whose numbers are not of", kind)

    def hold_length(self, kind, parts):
        if kind[2] != ["lenLit", len(parts)]:
            raise NoRule("static memory whose numbers are not of", kind)
        return parts


def initializer(values):
    """What static memory holds, as C writes it; more than fits a line stands in lines of sixteen."""
    if isinstance(values, int):
        return f"{values}u"
    texts = list(map(initializer, values))
    if len(", ".join(texts)) <= 100 or len(texts) == 1:
        return f"{{{', '.join(texts)}}}"
    rows = [", ".join(texts[i : i + 16]) for i in range(0, len(texts), 16)]
    return "{\n    " + ",\n    ".join(rows) + ",\n}"


def table(kind, values, name):
    return f"static const {kind} {name} = {initializer(values)};"
