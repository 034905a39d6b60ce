"""One function of the MIR in C: a statement for a statement but for moves (moves.py), and every local keeps its number (v0 is the
result).

What C leaves undefined and MIR does not is kept out here: arithmetic is done on unsigned numbers of at least 32 bits and cut down
to MIR's width, so that nothing is done in `int`; a divisor is a constant other than 0; what is copied from behind one address to
behind another is a number, since C forbids it for larger things that overlap; a variant's fields are read in the arm of a match that
is for that variant, of an enum that nothing sets meanwhile, so that no part of C's union is read but the one that was set. What MIR
proves to be never reached is a jump to itself, which C gives a meaning.
"""
from printer.constants import constants, operands, target, through
from printer.mir import NoRule, arms, chain, head, items, simple, statements
from printer.moves import Moves, flat, inner
from printer.slices import PARTS, is_slice, names, split
from printer.types import are_alike, record_name

ARITHMETIC = {"add": "+", "sub": "-", "mul": "*", "div": "/", "rem": "%", "and": "&", "or": "|", "xor": "^", "shl": "<<", "shr": ">>",
              "wrapAdd": "+", "wrapSub": "-"}
COMPARISON = {"eq": "==", "ne": "!=", "lt": "<", "le": "<="}
LOGIC = {"and": "&&", "or": "||", "xor": "!="}
INDENT = "    "
SHORT = 11  # statements of a function that is a part of each caller: with it rig.c is smallest on a Cortex-M4, and no slower than with fewer


def callee(form):
    return form[1][1][1].strip('"')


def reached(body):
    """The statements of a body, but for those behind one that leaves it."""
    forms = statements(body)
    leaving = [i for i, form in enumerate(forms, 1) if head(form) in ("return", "exit", "unreachable")]
    return forms[: leaving[0]] if leaving else forms


class Level:
    """A block or a loop that a statement is in: "loop", "around" a loop and nothing else, or "block"."""

    def __init__(self, word):
        self.word, self.label = word, None


class Function:
    def __init__(self, name, functions, types, tables):
        """`tables` has the constant tables of the file by what they hold: {(type, numbers): name}."""
        item = functions[name]
        self.name, self.types, self.all_tables = name, types, tables
        self.parameters, self.kinds = item[3], [local[1] for local in items(item[4])]
        self.body = split(item[5], self.kind_of)
        self.tables = {}
        for local, numbers in constants(item, functions).items():
            self.tables[local] = self.table(self.kinds[local], (numbers,))
        self.stored_in = self.lent_to_write()
        self.body = Moves(self.kinds, self.parameters, types, set(self.tables)).without(self.body)
        self.live, self.printed, self.matched, self.labels, self.is_part = self.read_somewhere(), set(), {}, 0, False

    def table(self, kind, values):
        return self.all_tables.setdefault((self.types.c(kind), values), f"table{len(self.all_tables)}")

    def read_somewhere(self):
        """The variables that a printed statement reads: what only sets another is not printed."""
        live, before = {"v0"}, None
        while live != before:
            before = set(live)
            for form in simple(self.body):
                live.update(name for place in self.reads(form, live) for name in names(place, self.kinds))
        return live

    def reads(self, form, live):
        """The places that a statement reads, if it is printed."""
        if head(form) in ("if", "switch"):
            return [x[1] for x in [form[1]] if head(x) == "copy"]
        if head(form) not in ("assign", "call") or target(form)[1] in self.tables:
            return []
        to = target(form)
        if form[0] == "assign" and (self.has_nothing(to) or not through(to) and not live.intersection(names(to, self.kinds))):
            return []
        places = [x[1] for x in flat(operands(form)) if head(x) == "copy" and not self.has_nothing(x[1])] + ([to] if through(to) else [])
        return places + ([form[2][1]] if form[0] == "assign" and form[2][0] == "addrOf" else [])

    def lent_to_write(self):
        """The locals that have an address in something else than a `&` that may not write."""
        found = set()
        for form in simple(self.body):
            if head(form) == "assign" and form[2][0] == "addrOf" and not through(form[2][1]):
                holder = self.kind_of(form[1])
                found.update([] if head(holder) == "tyRef" and holder[2] == "imm" else [form[2][1][1]])
        return found

    def calls(self):
        """The functions that the printed text calls, and those that only gave a table."""
        calls = [form for form in simple(self.body) if head(form) == "call"]
        tables = [callee(form) for form in calls if form[3][1] in self.tables]
        return [callee(form) for form in calls if form[3][1] not in self.tables], tables

    def is_short(self):
        """Whether it has few statements, and no loop, which a compiler settles best by itself."""
        loops = any(head(one) == "loop" for form in statements(self.body) for one in inner(form))
        return not loops and len(list(simple(self.body))) <= SHORT

    # ---- places and operands

    def kind_of(self, place):
        """The type of a place."""
        return self.types.at(self.kinds[place[1]], items(place[2]))

    def has_nothing(self, place):
        """Whether a place holds what C has none of."""
        return self.types.is_nothing(self.kind_of(place))

    def place(self, form):
        """A place as (C, type)."""
        local, steps = form[1], items(form[2])
        kind, text = self.kinds[local], self.tables.get(local, f"v{local}")
        self.printed.update(names(form, self.kinds))
        for done, step in enumerate(steps):
            text = self.part(text, kind, step, (local, steps[:done]))
            kind = self.types.after(kind, step)
        if head(kind) == "variant":
            raise NoRule("a part of an enum outside the arm of its variant:", steps)
        return text, kind

    def part(self, text, kind, step, before):
        """What a step leads to in C; `before` is the place that it leads on from."""
        inside = self.types.after(kind, step)
        if step[0] == "deref":
            return f"*{text}" if inside == ["tyInt", 8] else f"(*({self.types.c(inside)} *){text})"
        if step[0] == "variant":
            return text
        if head(kind) == "variant":
            return self.part_of_variant(text, kind, step[1], before)
        if is_slice(kind):
            return f"{text}_{PARTS[step[1]]}"
        return f"{text}.{self.types.fields(record_name(kind))[step[1]][0]}"

    def part_of_variant(self, text, kind, field, before):
        """The tag of an enum that is its tag; else a field, in the arm of a match that is for its variant."""
        _, enum, variant = kind
        if self.types.is_tag(enum):
            return text
        local, steps = before
        if self.matched.get(self.key(local, steps[:-1])) != variant or field == 0:
            raise NoRule("a part of an enum outside the arm of its variant:", [local, steps])
        if variant == self.types.joined(enum):
            return self.untagged(f"{text}.tag", self.types.variants(enum)[variant][0])
        return f"{text}.u.variant{variant}.f{field}" if self.types.is_united(enum) else f"{text}.f{field}"

    def untagged(self, tag, kind):
        """What a variant holds that is joined to the tag."""
        text = f"(uint8_t)({tag} - 1u)"
        for record in reversed(self.types.way_to_tag(kind)):
            text = f"({self.types.c(record)}){{{text}}}"
        return text

    def key(self, local, steps):
        """What a match knows an enum by, or None where it is behind an address, or may be stored in by one."""
        return None if local in self.stored_in or any(step[0] == "deref" for step in steps) else (local, str(steps))

    def operand(self, form):
        """An operand as (C, type)."""
        if form in ("true", "false"):
            return form, "tyBool"
        if head(form) == "copy":
            return self.place(form[1])
        if head(form) == "made":
            return self.value(form[2], form[1]), form[1]
        if head(form) == "int":
            return (f"{form[2]}u" if form[2] < 2**32 else f"UINT64_C({form[2]})"), ["tyInt", form[1]]
        raise NoRule("the operand", form)

    def address(self, form):
        steps = items(form[2])
        if steps and steps[-1][0] == "deref":  # the address of what lies behind an address is that address
            return self.place(["place", form[1], chain(steps[:-1])])[0]
        text, kind = self.place(form)
        if is_slice(kind) or any(step[0] == "variant" for step in steps):
            raise NoRule("the address of a slice, or in an enum,", form)
        return f"(byte *)&{text}"

    # ---- right-hand sides

    def binary(self, operation, first, second):
        word = head(operation)
        (a, kind), (b, other) = self.operand(first), self.operand(second)
        if word == "offset" and head(kind) in ("tyPtr", "tyRef"):
            return f"{a} + (size_t){b}"
        if kind != other or head(kind) not in ("tyInt", "tyBool"):
            raise NoRule(f"'{word}' of", [kind, other])
        if kind == "tyBool" and word in LOGIC:
            return f"{a} {LOGIC[word]} {b}"
        if word in ("eq", "ne") or (word in COMPARISON and head(kind) == "tyInt"):
            return f"{a} {COMPARISON[word]} {b}"
        if word not in ARITHMETIC or kind == "tyBool":
            raise NoRule(f"'{word}' of", kind)
        if word in ("div", "rem") and (head(second) != "int" or second[2] == 0):
            raise NoRule("a divisor that is no constant, or 0", second)
        return self.cut(kind[1], f"{self.widened(a, kind[1], first)} {ARITHMETIC[word]} {b}")

    def widened(self, text, width, form):
        """A first operand that C does not promote to `int`."""
        return f"(uint{max(width, 32)}_t){text}" if width < 32 or head(form) == "int" else text

    def cut(self, width, text):
        return f"(uint{width}_t)({text})" if width < 32 else text

    def unary(self, operation, form):
        text, kind = self.operand(form)
        if operation == "not" and kind == "tyBool":
            return f"!{text}"
        if head(operation) == "cast" and operation[1:3] == ["unsigned", "unsigned"] and head(kind) in ("tyInt", "tyBool"):
            return f"({self.types.c(['tyInt', operation[3]])}){text}"
        raise NoRule("the operation", operation)

    def value(self, form, kind):
        if form[0] == "rvOpd":
            text, held = self.operand(form[1])
            if self.types.is_nothing(held):
                raise NoRule("a unit for a", kind)
            return text
        if form[0] == "op2":
            return self.binary(*form[1:])
        if form[0] == "op1":
            return self.unary(*form[1:])
        if form[0] == "addrOf":
            if head(kind) not in ("tyPtr", "tyRef"):
                raise NoRule("an address for a", kind)
            return self.address(form[1])
        if form[0] == "aggregate" and self.types.is_enum(kind):
            return self.variant(items(form[1]), kind)
        if form[0] == "aggregate":
            inside = self.inside(items(form[1]))
            return f"({self.types.c(kind)}){{{f'{{{inside}}}' if head(kind) == 'tyArray' else inside}}}"
        raise NoRule("the value", form)

    def variant(self, forms, kind):
        """An enum's value: a tag, which is a constant, and the fields of its variant."""
        held = [self.held(form) for form in forms[1:]]
        tags = [tag for tag in range(len(self.types.variants(kind))) if forms[:1] == [["int", 8, tag]]]
        kinds = self.types.variants(kind)[tags[0]] if tags else []
        if not tags or len(kinds) != len(held) or not all(map(are_alike, kinds, held)):
            raise NoRule("a variant that is made of", forms)
        if self.types.is_tag(kind):
            return f"{tags[0]}u"
        if tags[0] == self.types.joined(kind):
            way = "".join(f".{self.types.fields(record_name(record))[0][0]}" for record in self.types.way_to_tag(kinds[0]))
            return f"({self.types.c(kind)}){{.tag = 1u + {self.operand(forms[1])[0]}{way}}}"
        fields, tag = self.inside(forms[1:]), self.types.tag(kind, tags[0])
        if fields and not self.types.is_united(kind):
            return f"({self.types.c(kind)}){{{tag}u, {fields}}}"
        inside = f", .u.variant{tags[0]} = {{{fields}}}" if fields else ""
        return f"({self.types.c(kind)}){{.tag = {tag}u{inside}}}"

    def held(self, form):
        """The type of an operand."""
        return "tyUnit" if form == "unit" else self.operand(form)[1]

    # ---- statements

    def assign(self, to, value):
        self.hold_target(to)
        if to[1] in self.tables or self.has_nothing(to) or not (through(to) or self.live.intersection(names(to, self.kinds))):
            return []
        text, kind = self.place(to)
        if value[0] == "repeat":
            if head(value[1]) != "int":
                raise NoRule("an array of equal values that are no constant", value)
            return [f"for (size_t i = 0; i < {value[2]}; i++) {text}.e[i] = {value[1][2]}u;"]
        copies = value[0] == "rvOpd" and head(value[1]) == "copy" and through(value[1][1])
        if through(to) and copies and head(kind) != "tyInt":
            raise NoRule("a copy from behind one address to behind another", kind)
        return [f"{text} = {self.value(value, kind)};"]

    def hold_target(self, to):
        if not through(to) and any(key[0] == to[1] for key in self.matched):
            raise NoRule("an enum that is set in an arm of its match:", to)

    def call(self, form):
        to = form[3]
        self.hold_target(to)
        if to[1] in self.tables:
            return []
        if through(to):
            raise NoRule("a call whose result goes behind an address", to)
        text = f"{self.types.functions(callee(form))}({', '.join(x for form in items(form[2]) for x in self.argument(form))});"
        if self.has_nothing(to):
            return [text]
        return [f"{self.place(to)[0]} = {text}" if f"v{to[1]}" in self.live else f"(void){text}"]

    def argument(self, form):
        """What stands in C for an operand: of a slice its two variables, of a unit nothing."""
        if head(form) == "slice":
            return [self.operand(x)[0] for x in form[1:]]
        if form == "unit" or (head(form) == "copy" and self.has_nothing(form[1])):
            return []
        text, kind = self.operand(form)
        return [f"{text}_{part}" for part in PARTS] if is_slice(kind) else [text]

    def inside(self, forms):
        """What stands in C for the parts of a record; a part that is made there is no record of its own."""
        texts = []
        for form in forms:
            text = self.argument(form)
            made = head(form) == "made" and text[0].startswith("(struct")
            texts += [text[0][text[0].index("{") :]] if made else text
        return ", ".join(texts)

    def lend_static(self, to, kind, form):
        """Static memory that is lent, and so only read."""
        reference, values = self.kinds[to[1]], self.types.static(kind, form)
        if to[2] != "lnil" or head(reference) != "tyRef" or reference[2:] != ["imm", kind]:
            raise NoRule("static memory that is lent as", [to, reference])
        if f"v{to[1]}" not in self.live:
            return []
        return [f"{self.place(to)[0]} = (byte *)&{self.table(kind, values)};"]

    def choice(self, form, around):
        test = self.operand(form[1])[0]
        yes, no = self.block(form[2], around), self.block(form[3], around)
        if not yes:
            test, yes, no = f"!{test}", no, []
        lines = [f"if ({test}) {{"] + yes
        return lines + (["} else {"] + no if no else []) + ["}"]

    def match(self, form, around):
        """A switch on a number, or on an enum's tag. Some arm is taken, so that the last needs no test."""
        found, (test, enum, key) = arms(form[2]), self.tested(form[1])
        self.hold_arms([keys for keys, _ in found], enum)
        lines, ((last, rest),) = [], found[-1:]
        for keys, body in found[:-1]:
            tests = [self.types.test(enum, test, k) if enum else f"{test} == {k}u" for k in keys]
            lines.append(f"{'} else ' if lines else ''}if ({' || '.join(tests)}) {{")
            lines += self.arm(key, keys, body, around)
        rest_is = ["not 0" if enum and k == self.types.joined(enum) else str(self.types.tag(enum, k) if enum else k) for k in last]
        note = f"/* {test} is {' or '.join(rest_is) or 'none of these'} */"
        return lines + [f"}} else {{ {note}"] + self.arm(key, last, rest, around) + ["}"]

    def tested(self, form):
        """What a switch is on: (C, the enum whose tag it is, what a match knows that by); of a number (C, None, None)."""
        if head(form) == "copy" and items(form[1][2])[-2:] == [["variant", 0], ["field", 0]]:
            steps = items(form[1][2])[:-2]
            text, enum = self.place(["place", form[1][1], chain(steps)])
            return text if self.types.is_tag(enum) else f"{text}.tag", enum, self.key(form[1][1], steps)
        text, kind = self.operand(form)
        if head(form) != "copy" or head(kind) != "tyInt":
            raise NoRule("a switch on", form)
        return text, None, None

    def hold_arms(self, keys, enum):
        """Each variant has one arm, or those that have none have the default; on a number there is a default."""
        named, rest = sorted(k for some in keys for k in some), keys.count([])
        variants = list(range(len(self.types.variants(enum)))) if enum else None
        whole = named == variants
        known = len(set(named)) == len(named) and (not enum or set(named) <= set(variants))
        if len(keys) < 2 or not known or rest != (0 if whole else 1) or (rest and keys[-1] != []):
            raise NoRule("a match whose arms are for", keys)

    def arm(self, key, keys, body, around):
        """The body of an arm, indented: in that for one variant an enum is of this one."""
        outside = self.matched
        if key and len(keys) == 1:
            self.matched = {**self.matched, key: keys[0]}
        lines = self.block(body, around)
        self.matched = outside
        return lines

    def leave(self, count, around):
        """`exit`: of a loop round again, of a block out of it. C has words for both of the innermost loop; other blocks get a label."""
        words, at = [level.word for level in around], len(around) - 1 - count
        inner = max([i for i, word in enumerate(words) if word == "loop"], default=-1)
        if at < 0 or (words[at] == "loop" and at != inner):
            raise NoRule(f"'exit {count}' within", words)
        if at == inner:
            return "continue;"
        if at == inner - 1 and words[at] == "around":
            return "break;"
        around[at].label = around[at].label or self.new_label("out")
        return f"goto {around[at].label};"

    def new_label(self, word):
        self.labels += 1
        return f"{word}{self.labels}"

    def within(self, body, around):
        """A block's statements; an `exit` that ends it says nothing. Its label stands behind it."""
        forms = reached(body)
        if forms[-1:] == [["exit", 0]]:
            forms.pop()
        level = Level("around" if [head(form) for form in forms] == ["loop"] else "block")
        lines = [line for form in forms for line in self.statement(form, around + [level])]
        return lines + ([f"{level.label}:;"] if level.label else [])

    def statement(self, form, around):
        word = head(form)
        if word == "assign":
            return self.assign(form[1], form[2])
        if word == "call":
            return self.call(form)
        if word == "return":
            return ["return;" if self.types.is_nothing(self.kinds[0]) else "return v0;"]
        if word == "unreachable":
            return [f"{(never := self.new_label('never'))}: goto {never};"]
        if word == "if":
            return self.choice(form, around)
        if word == "switch":
            return self.match(form, around)
        if word == "lendStatic":
            return self.lend_static(*form[1:])
        if word == "block":
            return self.within(form[1], around)
        if word == "loop":
            return ["for (;;) {"] + self.block(form[1], around + [Level("loop")]) + ["}"]
        if word == "exit":
            return [self.leave(form[1], around)]
        raise NoRule("the statement", form)

    def block(self, body, around):
        """A body, indented."""
        return [INDENT + line for form in reached(body) for line in self.statement(form, around)]

    # ---- the function

    def declared(self, local):
        """The variables of a local as (C type, name)."""
        return self.types.declared(self.kinds[local], f"v{local}")

    def prototype(self):
        inside = ", ".join(f"{c}{name}" for local in range(1, self.parameters + 1) for c, name in self.declared(local))
        word = "PART" if self.is_part else "static inline"
        return f"{word} {self.types.c(self.kinds[0])} {self.types.functions(self.name)}({inside or 'void'})"

    def locals(self):
        """The declarations, a line a type."""
        lines = {}
        for local, kind in enumerate(self.kinds):
            if local not in self.tables and not 1 <= local <= self.parameters:
                for c, name in self.declared(local):
                    if name in self.printed:
                        lines.setdefault(c.rstrip(" *"), []).append(f"*{name}" if c.endswith("*") else name)
        return [f"{INDENT}{c} {', '.join(found)};" for c, found in lines.items()]

    def text(self):
        lines = self.block(self.body, [])
        given = [name for local in range(1, self.parameters + 1) for _, name in self.declared(local)]
        unused = [f"{INDENT}(void){name};" for name in given if name not in self.printed]
        return [f"/* {self.name} */", f"{self.prototype()} {{"] + self.locals() + unused + lines + ["}", ""]
