"""Which local arrays of a function are constant tables, so that C may have each once, `static const`.

A local is one if a single statement sets it, to numbers, to another such local, to one that the statement directly before sets to
numbers, or to what a function that only returns such an array gives; and if nothing is stored in it: each address of it is only
read through, or handed on as a `&` that may not write.
"""
from printer.mir import followed, head, items, simple


def target(form):
    """The place that an assignment or a call sets."""
    return form[1] if form[0] == "assign" else form[3]


def through(place):
    """Whether a place lies behind an address."""
    return any(head(step) == "deref" for step in items(place[2]))


def operands(form):
    """What an assignment or a call reads; of an `addrOf` nothing."""
    if form[0] == "call":
        return items(form[2])
    value = form[2]
    if value[0] == "aggregate":
        return items(value[1])
    if value[0] == "addrOf":
        return []
    return value[2:] if value[0] in ("op1", "op2") else value[1:2]


def numbers(value):
    """The numbers of an array that is written out, or None."""
    if value[0] != "aggregate" or any(head(x) != "int" for x in items(value[1])):
        return None
    return tuple(x[2] for x in items(value[1]))


def only_returns(item):
    """The numbers that a function gives, if it does nothing but return an array that is written out."""
    forms = list(simple(item[5]))
    if len(forms) == 2 and forms[0][0] == "assign" and forms[0][1] == ["place", 0, "lnil"] and forms[1] == "return":
        return numbers(forms[0][2])
    return None


def only_read(local, kinds, forms):
    """Whether nothing is stored through an address of a local."""
    holders, todo = set(), [local]
    while todo:
        holder = todo.pop()
        holders.add(holder)
        shared = head(kinds[holder]) == "tyRef" and kinds[holder][2] == "imm"
        if head(kinds[holder]) == "tyRef" and not shared:
            return False
        for form in forms:
            to = target(form)
            if holder != local and to[1] == holder and through(to):
                return False
            if not takes_address(form, holder, holder == local):
                continue
            if form[0] == "assign" and form[2][0] in ("addrOf", "rvOpd", "op2"):
                if to[2] != "lnil":
                    return False
                todo += [to[1]] if to[1] not in holders else []
            elif not shared:
                return False
    return True


def takes_address(form, holder, is_array):
    """Whether a form makes an address out of one that a local holds, or hands it on; of the array itself, takes its address."""
    if form[0] == "assign" and form[2][0] == "addrOf":
        place = form[2][1]
        return place[1] == holder and (is_array or through(place))
    copies = [x[1] for x in operands(form) if head(x) == "copy"]
    return not is_array and any(place[1] == holder and not through(place) for place in copies)


def constants(item, functions):
    """The constant tables of a function: {local: numbers}."""
    kinds = [local[1] for local in items(item[4])]
    forms = [form for form in simple(item[5]) if head(form) in ("assign", "call")]
    found = {}
    for local in range(item[3] + 1, len(kinds)):
        sets = [form for form in forms if target(form)[1] == local and not through(target(form))]
        if head(kinds[local]) != "tyArray" or len(sets) != 1 or target(sets[0])[2] != "lnil":
            continue
        if only_read(local, kinds, forms):
            found[local] = sets[0]
    return settle(found, item[5], functions)


def just_set(body, copy, local):
    """The numbers that the statement directly before a copy sets a local to, or None."""
    for form, before in followed(body):
        if form is copy and head(before) == "assign" and before[1] == ["place", local, "lnil"]:
            return numbers(before[2])
    return None


def settle(sets, body, functions):
    """The numbers of each local that comes, over other locals, from an array that is written out."""
    known, before = {}, None
    while known != before:
        before = dict(known)
        for local, form in sets.items():
            if form[0] == "call":
                given = only_returns(functions[form[1][1][1].strip('"')])
            elif form[2][0] == "rvOpd" and head(form[2][1]) == "copy" and form[2][1][1][2] == "lnil":
                source = form[2][1][1][1]
                given = known.get(source, just_set(body, form, source))
            else:
                given = numbers(form[2])
            if given is not None:
                known[local] = given
    return known
