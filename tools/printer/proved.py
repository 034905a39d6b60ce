"""The MIR that the proved crates carry, toolchain/mir.json of each rlib, in the forms that printer/mir.py reads.

A generic function is printed at the types, and with the impls for its bounds, that it is called with: its instance has these put in
for its parameters, and their names behind its own, `core::slots::Slots::copy_in<u8; core::clone::U8Clone>`. Lifetimes are no part of
that name.

A key that is not known is refused. Not read is what a crate says for the checker alone: what a bound asks for, which lifetimes outlive
a type or another, whether a type may be copied, whether a closure is spent by its call, and of a type's row the lifetimes and bounds,
what it owns and whether it is a tuple.
"""
import json

from printer.mir import NoRule, Refused, chain

ITEM = {"lifetimes", "outlives", "params", "generics", "types", "locals", "body"}
GENERICS = {"types", "outlives", "bounds", "method_of", "trait_lifetimes", "impls"}
SPENT = {"spends_self"}
PARAMETER = {"is_copy", "is_kept", "const_bits"}
IMPL = {"name", "lifetimes", "outlives", "types", "type_outlives", "bounds", "of", "methods"}
ROW = {"name", "lifetimes", "bounds", "type_params", "const_params", "type_bounds", "owns", "is_cell", "shape", "is_tuple"}


def word(name):
    return name[0].lower() + name[1:]


def name(text):
    if '"' in text:
        raise NoRule("the name", text)
    return f'"{text}"'


def parts(form, keys, what):
    """A form that has these keys and no other."""
    if not isinstance(form, dict) or form.keys() != set(keys):
        raise NoRule(f"{what} with the keys", sorted(form) if isinstance(form, dict) else form)
    return form


def one(form):
    """The key and the value of {key: value}."""
    if not isinstance(form, dict) or len(form) != 1:
        raise NoRule("a proved form", form)
    return next(iter(form.items()))


def hold(holds, what, form):
    if not holds:
        raise NoRule(what, form)


# ---- instances


def closed(form, types, dicts):
    """A form with these types and impls in the place of the parameters and the bounds."""
    if isinstance(form, list):
        return [closed(x, types, dicts) for x in form]
    if not isinstance(form, dict):
        return form
    if form.keys() == {"Param"} or form.keys() == {"Given"}:
        key, index = one(form)
        given = types if key == "Param" else dicts
        hold(isinstance(index, int) and index < len(given), "a parameter that is not given,", form)
        return given[index]
    return {key: closed(inside, types, dicts) for key, inside in form.items()}


def shown(form):
    """A type as it stands in the name of an instance."""
    if form in ("Unit", "Bool", "Ptr"):
        return {"Unit": "()", "Bool": "bool", "Ptr": "*"}[form]
    key, inside = one(form)
    if key == "Int":
        return f"u{inside}"
    if key == "Named":
        return instance(inside[0]["name"], inside[1], [])
    if key == "Array":
        return f"[{shown(inside[0])}; {length(inside[1])}]"
    if key == "Ref" and inside[1] in ("Imm", "Mut"):
        return f"&{'mut ' if inside[1] == 'Mut' else ''}{shown(inside[2])}"
    if key == "Struct" and inside[0] == "&[]" and inside[1][1:] == [{"Int": 64}]:
        reference = shown(inside[1][0])
        start = 5 if reference.startswith("&mut ") else 1
        return f"{reference[:start]}[{reference[start:]}]"
    raise NoRule("an instance at the type", form)


def shown_impl(form):
    key, inside = one(form)
    hold(key == "Impl" and len(inside) == 3, "an instance with", form)
    return instance(*inside)


def instance(title, types, dicts):
    """The name of a function, a type or an impl at these types, with these impls."""
    inside = "; ".join(x for x in (", ".join(map(shown, types)), ", ".join(map(shown_impl, dicts))) if x)
    return f"{title}<{inside}>" if inside else title


# ---- types


def kind(form):
    if isinstance(form, str):
        return f"ty{form}"
    key, inside = one(form)
    if key == "Int":
        return ["tyInt", inside]
    if key == "Array":
        return ["tyArray", kind(inside[0]), ["lenLit", length(inside[1])]]
    if key == "Named":
        named = parts(inside[0], {"name", "lifetimes"}, "a named type")
        return ["tyNamed", ["pair", name(shown(form)), chain([lifetime(x) for x in named["lifetimes"]])]]
    if key == "Ref":
        return ["tyRef", lifetime(inside[0]), word(inside[1]), kind(inside[2])]
    if key == "Struct":
        return ["tyStruct", name(inside[0]), kinds(inside[1])]
    raise NoRule("a proved type", form)


def length(form):
    return parts(form, {"Lit"}, "a length")["Lit"]


def kinds(forms):
    return chain([kind(x) for x in forms], "tcons", "tnil")


def lifetime(form):
    return word(form) if isinstance(form, str) else [word(one(form)[0]), one(form)[1]]


def shape(form):
    """The fields of a record, or the variants of an enum."""
    key, inside = one(form)
    if key == "Fields":
        return ["fields", kinds(inside)]
    if key == "Variants":
        return ["variants", chain([kinds(x) for x in inside], "ttcons", "ttnil")]
    raise NoRule("a proved shape", form)


def named(form):
    """The named types in a form: [(name, types)]."""
    if isinstance(form, dict) and form.keys() == {"Named"} and isinstance(form["Named"], list):
        yield form["Named"][0]["name"], form["Named"][1]
    for inside in form.values() if isinstance(form, dict) else form if isinstance(form, list) else []:
        yield from named(inside)


def erased(form):
    """A type with no lifetime told from another."""
    if isinstance(form, list):
        return [erased(x) for x in form]
    if not isinstance(form, dict):
        return form
    if form.keys() == {"Ref"}:
        return {"Ref": ["Erased"] + [erased(x) for x in form["Ref"][1:]]}
    return {key: ["Erased"] * len(inside) if key == "lifetimes" else erased(inside) for key, inside in form.items()}


def shapes(rows, forms):
    """The shapes of the named types in the forms and in these shapes: {name of the instance: shape}."""
    given, found, todo = {}, {}, list(named(forms))
    for row in rows:
        parts(row, ROW, "a proved type's row")
        hold(row["const_params"] == [] and row["is_cell"] is False, "a type that is a cell or has a const parameter,", row["name"])
        hold(given.setdefault(row["name"], row) == row, "two rows of the type", row["name"])
    while todo:
        title, types = todo.pop(0)
        whole = instance(title, types, [])
        if title in given and whole not in found:
            hold(given[title]["type_params"] == len(types), "the types of", whole)
            inside = closed(given[title]["shape"], erased(types), [])
            found[whole] = shape(inside)
            todo += named(inside)
    return found


# ---- code


def place(form):
    parts(form, {"local", "steps"}, "a place")
    return ["place", form["local"], chain([step(x) for x in form["steps"]])]


def step(form):
    key, inside = one(form)
    return ["deref", kind(inside)] if key == "Deref" else [word(key), inside]


def operand(form):
    if isinstance(form, str):
        return word(form)
    key, inside = one(form)
    if key == "Copy":
        return ["copy", place(inside)]
    if key == "Int":
        return ["int", parts(inside, {"width", "value"}, "a constant")["width"], inside["value"]]
    if key == "SizeOf" and one(inside)[0] == "Int":
        return ["int", 64, inside["Int"] // 8]
    raise NoRule("a proved operand", form)


def operation(form):
    if isinstance(form, str):
        return word(form)
    key, inside = one(form)
    return [word(key)] + [x if isinstance(x, int) else word(x) for x in (inside if isinstance(inside, list) else [inside])]


def value(form):
    key, inside = one(form)
    if key == "Opd":
        return ["rvOpd", operand(inside)]
    if key == "AddrOf":
        return ["addrOf", place(inside)]
    if key == "Aggregate":
        return ["aggregate", chain([operand(x) for x in inside])]
    if key == "Repeat":
        return ["repeat", operand(inside[0]), length(inside[1])]
    if (key, len(inside)) in (("Op1", 2), ("Op2", 3)):
        return [word(key), operation(inside[0])] + [operand(x) for x in inside[1:]]
    raise NoRule("a proved value", form)


class Code:
    """A body, one list of words, each followed by its parts. `callees` has what it calls: {name: (title, method, types, dicts)}."""

    def __init__(self, forms, methods):
        self.forms, self.methods, self.callees = list(forms), methods, {}

    def whole(self):
        form = self.body()
        hold(not self.forms, "a proved body that goes on with", self.forms)
        return form

    def body(self):
        hold(self.forms, "a proved body that ends", "")
        form = self.forms.pop(0)
        if form in ("Return", "Skip", "Unreachable"):
            return word(form)
        if form == "Seq":
            return ["seq", self.body(), self.body()]
        if form in ("Block", "Loop"):
            return [word(form), self.body()]
        key, inside = one(form)
        if key == "If":
            return ["if", operand(inside), self.body(), self.body()]
        if key == "Switch":
            return self.switch(*inside)
        if key == "Exit":
            return ["exit", inside]
        if key == "Assign":
            return ["assign", place(inside[0]), value(inside[1])]
        if key == "LendStatic":
            return ["lendStatic", place(inside[0]), kind(inside[1]), static(inside[2])]
        if key == "Call":
            return ["call", ["direct", ["fnRef", name(self.callee(inside[0]))]], chain([operand(x) for x in inside[1]]), place(inside[2])]
        raise NoRule("a proved statement", form)

    def switch(self, test, keys, default):
        """A switch has its keys before the bodies of its arms, and a default's body behind these."""
        hold(default in (False, True), "a proved switch whose default is", default)
        arms = [(chain(key), self.body()) for key in keys]
        form = ["default", self.body()] if default else "noDefault"
        for key, arm in reversed(arms):
            form = ["arm", key, arm, form]
        return ["switch", operand(test), form]

    def callee(self, form):
        """A function, or a method of an impl, which has the impl's parameters before its own."""
        key, inside = one(form)
        given = parts(inside[-1], {"types", "dicts"}, "a call")
        if key == "Fn" and len(inside) == 2:
            title, method, types, dicts = inside[0], None, given["types"], given["dicts"]
        elif key == "Method" and len(inside) == 3 and one(inside[0])[0] == "Impl":
            (impl, types, dicts), index = inside[0]["Impl"], inside[1]
            hold(impl in self.methods and index < len(self.methods[impl]), "a method of an impl that is not given,", impl)
            title, method = self.methods[impl][index], [impl, index]
            types, dicts = types + given["types"], dicts + given["dicts"]
        else:
            raise NoRule("a call of", form)
        whole = instance(title, types, dicts)
        self.callees[whole] = (title, method, types, dicts)
        return whole


def static(form):
    """What static memory holds: numbers of an array, a number, or the parts of something larger; of an enum its tag."""
    key, inside = one(form)
    if key == "Ints":
        return ["ints", parts(inside, {"width", "values"}, "static numbers")["width"], chain(inside["values"])]
    if key == "Int":
        return ["int", parts(inside, {"width", "value"}, "a static number")["width"], inside["value"]]
    hold(key == "Parts", "static memory of", form)
    return ["parts", chain([static(x) for x in inside])]


def local(form):
    parts(form, {"ty", "home"}, "a local")
    return ["local", kind(form["ty"]), word(form["home"])]


def is_method(given, method):
    """Whether a function is the method that is called; one that is called by its name may be a method of any impl."""
    return given == {"Impl": method} if method else given is None or given.keys() == {"Impl"}


def made(form, title, method, types, dicts, methods):
    """An instance of a proved function: its fnItem, the shapes of its types, and what it calls."""
    parts(form, ITEM, f"{title}: an item")
    generics = parts(form["generics"], GENERICS | (form["generics"].keys() & SPENT), f"{title}: parameters")
    for parameter in generics["types"]:
        parts(parameter, PARAMETER, f"{title}: a parameter")
        hold(not parameter["is_kept"] and parameter["const_bits"] is None, f"{title}: the parameter", parameter)
    hold(is_method(generics["method_of"], method), f"{title}: a method of", generics["method_of"])
    hold((len(generics["types"]), len(generics["bounds"])) == (len(types), len(dicts)), f"{title}: other types or bounds than", [types, dicts])
    hold(generics["trait_lifetimes"] == 0, f"{title}: lifetimes of a trait", "")
    for impl in generics["impls"]:
        parts(impl, IMPL, f"{title}: an impl")
        hold(methods.setdefault(impl["name"], impl["methods"]) == impl["methods"], "two meanings of the impl", impl["name"])
    locals_, code = closed(form["locals"], types, dicts), Code(closed(form["body"], types, dicts), methods)
    item = ["fnItem", form["lifetimes"], "lnil", form["params"], chain([local(x) for x in locals_]), code.whole()]
    return item, shapes(form["types"], [locals_, closed(form["body"], types, dicts)]), code.callees


# ---- crates


class Crates:
    """What the proved crates carry. A function is looked up in the crate that its name begins with."""

    def __init__(self, rlibs):
        self.paths, self.read = {}, {}
        for rlib in rlibs:
            if self.paths.setdefault(rlib.stem, rlib) != rlib:
                raise Refused(f"two crates {rlib.stem}: {self.paths[rlib.stem]} and {rlib}")

    def functions(self, crate):
        if crate not in self.read:
            pairs = json.loads((self.paths[crate] / "toolchain/mir.json").read_text()) if crate in self.paths else []
            self.read[crate] = dict(pairs)
            hold(len(self.read[crate]) == len(pairs), "two functions of one name in", crate)
        return self.read[crate]

    def function(self, title):
        found = self.functions(title.split("::")[0])
        if title not in found:
            raise Refused(f"{title}: no proved crate has it")
        return found[title]

    def program(self, entries):
        """The entries and all that they call, each once, with the shapes of its types: {name: (fnItem, {name: shape})}."""
        found, methods, todo = {}, {}, {title: (title, None, [], []) for title in entries}
        while todo:
            whole = next(iter(todo))
            title, method, types, dicts = todo.pop(whole)
            item, rows, calls = made(self.function(title), title, method, types, dicts, methods)
            found[whole] = item, rows
            todo.update((other, call) for other, call in calls.items() if other not in found)
        return found
