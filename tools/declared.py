"""What a C header declares: its records and its functions. For a header of plain records, numbers and pointers, as rig.h is."""
import re


def stated(header):
    """Records and prototypes of a header, by name, each as one line of C."""
    text = re.sub(r"/\*.*?\*/|//[^\n]*", " ", header.read_text(), flags=re.S)
    text = re.sub(r"^#define.*?(?<!\\)$|^#.*$|RIG_ASSERT\(.*?\);", "", text, flags=re.M)
    text = " ".join(text.split())
    declared = {}
    for name, body in re.findall(r"struct (\w+) \{(.*?)\};", text):
        declared[name] = f"struct {name} {{ {body.strip()} }};"
    for result, name, inside in re.findall(r"((?:struct )?\w+) (\w+)\(([^()]*)\);", text):
        declared[name] = f"{result} {name}({inside});"
    return declared


def fields(line):
    """The fields of a record as (type, name, length of the array, or None)."""
    return [(kind, name, int(length) if length else None) for kind, name, length in re.findall(r"(\w+) (\w+)(?:\[(\d+)\])?;", line)]


def prototype(line):
    """Result and parameters of a function: (type, [(type, name)])."""
    result, inside = re.fullmatch(r"(.*?) \w+\((.*)\);", line).groups()
    parts = [] if inside == "void" else inside.split(", ")
    return result, [re.fullmatch(r"(.*?)(\w+)", part).groups() for part in parts]
