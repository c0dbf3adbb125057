"""What the header, ffi.rs and the Rattle sources declare, in one form, for tests/abi/run.

    declared.py functions header|rust|rattle    a line for each exported function, with its types
    declared.py structs header|rust|rattle      a line for each field of each struct, with its type
    declared.py probe header|rust               a program that prints the layout of each struct, as its compiler has it
    declared.py layout rattle                   the same lines, computed from the #[repr(C)] declarations

Structs go by the header's names. Types: u8 .., a struct's name, [T; n], *const T, *mut T.
"""
import re
import sys
from collections import namedtuple

from layout import c_probe, layout, rust_probe
from rattle import Rattle
from reading import FFI, HEADER, fail, parts, typed, without_comments

C_NUMBERS = {"uint8_t": "u8", "uint16_t": "u16", "uint32_t": "u32", "uint64_t": "u64", "size_t": "usize"}

# structs: name -> [(field, type)]; functions: name -> ([type], result)
Declared = namedtuple("Declared", "structs functions")


def c_type(words):
    constant = "const" in words.split()
    base = words.replace("const", "").replace("*", "").strip()
    base = C_NUMBERS.get(base, base)
    return f"*{'const' if constant else 'mut'} {base}" if "*" in words else base


def c_fields(body):
    fields = []
    for declaration in parts(body, ";"):
        base, names = re.match(r"(\w+)\s+(.*)", declaration, re.S).groups()
        for name, length in re.findall(r"(\w+)(?:\[(\d+)\])?", names):
            fields.append((name, f"[{c_type(base)}; {length}]" if length else c_type(base)))
    return fields


def header():
    text = without_comments(HEADER)
    structs = {name: c_fields(body) for body, name in re.findall(r"typedef struct \{(.*?)\} (\w+);", text, re.S)}
    functions = {}
    for result, name, arguments in re.findall(r"^(\w+)\s+(\w+)\((.*?)\);", text, re.S | re.M):
        types = [re.match(r"(.*?)\w+$", argument, re.S).group(1).strip() for argument in parts(arguments)]
        functions[name] = ([c_type(t) for t in types], c_type(result))
    return Declared(structs, functions)


def snake(name):
    """DeltaRow -> iflughan_delta_row"""
    return "iflughan_" + re.sub(r"(?<!^)([A-Z])", r"_\1", name).lower()


def rust_type(text):
    return re.sub(r"\b[A-Z]\w*", lambda m: snake(m.group()), text.strip())


def rust_structs():
    """By their own names."""
    text = without_comments(FFI)
    found = re.findall(r"#\[repr\(C\)\]\s*(?:#\[derive.*?\]\s*)?pub struct (\w+) \{(.*?)\}", text, re.S)
    if len(found) != len(re.findall(r"\bstruct\b", text)):
        fail("a struct of ffi.rs is not #[repr(C)]")
    return {name: [typed(field) for field in parts(body)] for name, body in found}


def rust():
    structs = {snake(name): [(f, rust_type(t)) for f, t in fields] for name, fields in rust_structs().items()}
    functions = {}
    for name, arguments, result in re.findall(r"pub fn (\w+)\((.*?)\) -> (.*?);", without_comments(FFI), re.S):
        functions[name] = ([rust_type(typed(a)[1]) for a in parts(arguments)], rust_type(result))
    return Declared(structs, functions)


def rattle():
    found = Rattle(header())
    return Declared(found.structs(), found.functions)


SIDES = {"header": header, "rust": rust, "rattle": rattle}


def main(what, side):
    if what == "functions":
        return [f"{name}({', '.join(types)}) -> {result}" for name, (types, result) in SIDES[side]().functions.items()]
    if what == "structs":
        return [f"{name}.{field}: {of}" for name, fields in SIDES[side]().structs.items() for field, of in fields]
    if what == "probe":
        return c_probe(header().structs) if side == "header" else rust_probe({(n, snake(n)): f for n, f in rust_structs().items()})
    structs = rattle().structs
    return [line for name in structs for line in layout(name, structs)[0]]


if __name__ == "__main__":
    print("\n".join(main(*sys.argv[1:3])))
