"""The MIR that tools/mir prints, read into nested lists, and the forms of it that there are rules for.

A form is a word with its arguments: `(place 3 lnil)` is ["place", 3, "lnil"], a name stays in its quotes.
"""
import re

ARGUMENTS = {
    0: "skip return true false unit tyBool tyPtr tyUnit lnil tnil ttnil imm mut erased unsigned valueLocal memorySlot"
    " noDefault and or xor not eq ne shl offset wrapAdd wrapSub static unreachable",
    1: "tyInt tyNamed lenLit named bound deref field variant copy add sub mul div rem shr lt le rvOpd addrOf aggregate block loop exit"
    " direct fnRef fields variants parts default",
    2: "lcons tcons ttcons local tyArray tyStruct pair place int ints op1 repeat seq assign switch",
    3: "tyRef cast op2 if call arm lendStatic",
    5: "fnItem",
}
KNOWN = {word: count for count, words in ARGUMENTS.items() for word in words.split()}


class Refused(Exception):
    """Something that the printer does not print."""


class NoRule(Refused):
    """A form of the MIR, or a use of it, that the printer has no rule for."""

    def __init__(self, what, form=""):
        super().__init__(f"no rule for {what} {str(form)[:200]}".rstrip())


def read(text):
    stack = [[]]
    for token in re.findall(r'"[^"]*"|[()]|[^\s()"]+', text):
        if token == "(":
            stack.append([])
        elif token == ")":
            done = stack.pop()
            stack[-1].append(done)
        else:
            stack[-1].append(int(token) if token.isdigit() else token)
    if len(stack) != 1:
        raise NoRule("text whose brackets do not close")
    return stack[0]


def head(form):
    return form if isinstance(form, str) else form[0]


def items(form):
    """A list of the MIR as a list."""
    out = []
    while head(form) in ("lcons", "tcons", "ttcons"):
        out.append(form[1])
        form = form[2]
    if form not in ("lnil", "tnil", "ttnil"):
        raise NoRule("a list that ends in", form)
    return out


def chain(forms, cons="lcons", nil="lnil"):
    """A list as a list of the MIR."""
    for form in reversed(forms):
        nil = [cons, form, nil]
    return nil


def statements(body):
    """A body as a list of statements."""
    if head(body) == "seq":
        return statements(body[1]) + statements(body[2])
    return [] if body == "skip" else [body]


def arms(form):
    """The arms of a switch: [(keys, body)]. A default has no keys and is the last."""
    out = []
    while head(form) == "arm":
        if form[1] == "lnil":
            raise NoRule("a match whose arms are for", "no key")
        out.append((items(form[1]), form[2]))
        form = form[3]
    if head(form) == "default":
        return out + [([], form[1])]
    if form != "noDefault":
        raise NoRule("a switch that ends in", form)
    return out


def bodies(form):
    """The bodies within a statement."""
    if head(form) in ("block", "loop"):
        return [form[1]]
    if head(form) == "if":
        return [form[2], form[3]]
    return [arm for _, arm in arms(form[2])] if head(form) == "switch" else []


def simple(body):
    """Every statement of a body with no statement in it, and the tests of its ifs and switches."""
    for form in statements(body):
        if head(form) not in ("block", "loop"):
            yield form
        for inner in bodies(form):
            yield from simple(inner)


def followed(body):
    """Each statement of a body that directly follows another, with that other."""
    forms = statements(body)
    yield from zip(forms[1:], forms)
    for form in forms:
        for inner in bodies(form):
            yield from followed(inner)


def check(form):
    """Refuse what is no known word with its count of arguments."""
    if isinstance(form, int) or (isinstance(form, str) and form.startswith('"')):
        return
    word, arguments = (form, []) if isinstance(form, str) else (form[0], form[1:])
    if not isinstance(word, str) or KNOWN.get(word) != len(arguments):
        raise NoRule(f"the form '{word}' with {len(arguments)} arguments", form)
    if word == "int" and arguments[1] >= 2 ** arguments[0]:
        raise NoRule("a constant that does not fit", form)
    for argument in arguments:
        check(argument)


def program(text):
    """Functions and named types of a printed MIR: {name: fnItem}, {name: its fields or variants}."""
    forms = read(text)
    if forms[:1] != ["program"]:
        raise NoRule("text that is no program")
    functions, shapes = {}, {}
    for form in items(forms[1]):
        if head(form) != "fn-def" or head(form[2]) != "fnItem" or form[1].strip('"') in functions:
            raise NoRule("the definition", form)
        functions[form[1].strip('"')] = form[2]
        for row in items(form[3]) if len(form) > 3 else []:
            check(row)
            if shapes.setdefault(row[1].strip('"'), row[2]) != row[2]:
                raise NoRule("two meanings of", row[1])
    return functions, shapes
