"""An entry of rig.h: what C calls. A length becomes one of 64 bits, and a record with a size_t or an array in it is turned over
field by field."""
from printer.mir import NoRule, head
from printer.slices import is_slice, lent
from printer.types import record_name

LENT = """/* Lent memory. No null pointer goes in, for C has no null + 0. */
static byte *lent(const uint8_t *at, size_t length) {
    static const byte nothing[1] = {0};
    return (byte *)(length > 0 ? at : nothing);
}
"""


class Entry:
    def __init__(self, name, prototype, function):
        self.name, self.function, self.types = name, function, function.types
        self.result, self.parameters = prototype

    def arguments(self):
        """What the function is called with; each parameter of C is held to the MIR's."""
        left, texts = list(self.parameters), []
        for kind in self.function.kinds[1 : self.function.parameters + 1]:
            c, name = left.pop(0)
            if is_slice(kind):
                reference, writes = lent(kind)
                length = left.pop(0)
                self.hold(c, "uint8_t *" if writes else "const uint8_t *", reference[3] == ["tyInt", 8])
                self.hold(length[0], "size_t ", length[1] == f"{name}_len")
                texts.append(f"lent({name}, {name}_len), {name}_len")
            elif head(kind) == "tyRef":
                self.hold(c, f"{self.types.c(kind[3])} *", kind[2] == "mut")
                texts.append(f"(byte *){name}")
            else:
                self.hold(c, f"{self.spelled(c.rstrip(), kind)} ", True)
                texts.append(name)
        self.hold(len(left), 0, True)
        return ", ".join(texts)

    def spelled(self, c, kind):
        """A type in C; where C has a size_t, MIR has 64 bits."""
        return "size_t" if (c, kind) == ("size_t", ["tyInt", 64]) else self.types.c(kind)

    def hold(self, header, mir, also):
        if header != mir or not also:
            raise NoRule(f"a parameter of {self.name} that is", [header, mir])

    def turned_over(self, kind):
        """The lines that give C its own record for the one within."""
        lines = [f"    {self.result} c0;"]
        for (c, name, length), (_, inner) in zip(self.types.given[record_name(kind)][1], self.types.fields(record_name(kind))):
            if length is not None and inner == ["tyArray", ["tyInt", int(c[4:-2])], ["lenLit", length]]:
                lines.append(f"    for (size_t i = 0; i < {length}; i++) c0.{name}[i] = v0.{name}.e[i];")
            elif length is None and c == self.spelled(c, inner):
                lines.append(f"    c0.{name} = {'(size_t)' if c == 'size_t' else ''}v0.{name};")
            else:
                raise NoRule(f"the field {name} of {self.result} as", inner)
        return lines + ["    return c0;"]

    def text(self):
        kind = self.function.kinds[0]
        inner, call = self.types.c(kind), f"{self.types.functions(self.function.name)}({self.arguments()});"
        inside = ", ".join(f"{c}{name}" for c, name in self.parameters)
        if inner == self.result:
            lines = [f"    return {call}"]
        else:
            lines = [f"    {inner} v0 = {call}"] + self.turned_over(kind)
        return [f"{self.result} {self.name}({inside}) {{"] + lines + ["}", ""]
