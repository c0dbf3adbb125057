"""The exported functions of the crate `iflughan` and the structs that cross with them, as the Rattle sources declare them.

A Rattle struct gets the name of the header's struct that stands at its place in a function's types or in a struct's fields, and its
fields get the names of the fields there: Rattle's own names may differ. A slice is a pointer and a length. A usize is the header's
uint64_t, as both have 8 bytes on x86-64.
"""
import re

from reading import CRATES, fail, parts, typed, without_comments

TOP = "iflughan"
EXPORTED = r'#\[unsafe\(no_mangle\)\]\s*pub extern "C" fn (\w+)(?:<.*?>)?\((.*?)\) -> ([\w:]+)'


class Rattle:
    def __init__(self, header):
        self.header = header
        self.sources = {d.name: without_comments(*sorted((d / "src").glob("*.rt"))) for d in sorted(CRATES.iterdir())}
        self.names = {}  # (crate, struct) -> the header's name
        self.functions = {name: self.function(name, *types) for name, *types in re.findall(EXPORTED, self.sources[TOP], re.S)}

    def function(self, name, arguments, result):
        declared = [typed(a)[1] for a in parts(arguments)]
        if name not in self.header.functions:
            return declared, result
        wanted, wanted_result = self.header.functions[name]
        types = []
        for text in declared:
            types += self.argument(text, wanted[len(types)] if len(types) < len(wanted) else "")
        return types, self.named(TOP, result, wanted_result)

    def argument(self, text, wanted):
        lent = re.match(r"&\s*(?:'\w+ )?(mut )?\[(.*)\]$", text)
        if not lent:
            return [self.named(TOP, text, wanted)]
        behind = self.named(TOP, lent.group(2), wanted.split(" ")[-1])
        return [f"*{'mut' if lent.group(1) else 'const'} {behind}", "usize"]

    def named(self, crate, text, wanted):
        """A type of `crate` by the header's names, where the header has `wanted`."""
        array = re.match(r"\[(.*); *(\w+)\]$", text)
        if array:
            of_header = re.match(r"\[(.*); *\w+\]$", wanted)
            inner = self.named(crate, array.group(1), of_header.group(1) if of_header else "")
            return f"[{inner}; {self.length(crate, array.group(2))}]"
        if text[0].islower() and "::" not in text:
            return wanted if {text, wanted} == {"usize", "u64"} else text
        if wanted not in self.header.structs:
            return f"{crate}::{text}"
        place = self.place(crate, text)
        if self.names.setdefault(place, wanted) != wanted:
            fail(f"{place[1]} of crate {place[0]} stands for {self.names[place]} and for {wanted}")
        return wanted

    def place(self, crate, name):
        """The crate that declares the struct that `name` means in `crate`, and the struct's own name."""
        path = name.split("::")
        if len(path) > 1:
            return path[0], path[-1]
        if re.search(rf"\bstruct {name}\b", self.sources[crate]):
            return crate, name
        used = re.search(rf"^use (\w+)::(?:\w+::)*(?:\{{[^}}]*\b)?{name}\b", self.sources[crate], re.M)
        return (used.group(1), name) if used else fail(f"crate {crate}: nothing says what {name} is")

    def length(self, crate, text):
        if text.isdigit():
            return text
        constant = re.search(rf"const {text}: usize = (\d+);", self.sources[crate])
        return constant.group(1) if constant else fail(f"crate {crate}: no length {text}")

    def fields(self, crate, name):
        found = re.search(rf"(#\[repr\(C\)\]\s*)?(?:#\[derive\([^)]*\)\]\s*)?(?:pub )?struct {name} \{{(.*?)\}}", self.sources[crate], re.S)
        if not found or not found.group(1):
            fail(f"{name} of crate {crate} crosses the interface and is not #[repr(C)]")
        return [typed(field) for field in parts(found.group(2))]

    def structs(self):
        """The structs that the functions reach, with the header's field names at their places."""
        found, read = {}, set()
        while read != set(self.names):
            for place in set(self.names) - read:
                read.add(place)
                fields = self.struct(place)
                if found.setdefault(self.names[place], fields) != fields:
                    fail(f"{self.names[place]} is two structs of different fields, {place[1]} of crate {place[0]} and another")
        return found

    def struct(self, place):
        crate, own = place
        declared, of_header = self.fields(crate, own), self.header.structs[self.names[place]]
        if len(declared) != len(of_header):
            fail(f"{own} of crate {crate} has {len(declared)} fields, {self.names[place]} has {len(of_header)}")
        return [(field, self.named(crate, text, wanted)) for (_, text), (field, wanted) in zip(declared, of_header)]
