"""Layouts of structs: by C's rules from a field list, and programs that print what a compiler has."""
import re

from reading import FFI

SIZES = {"u8": 1, "u16": 2, "u32": 4, "u64": 8, "usize": 8, "bool": 1}


def size_and_alignment(of_type, structs):
    if of_type in SIZES:
        return SIZES[of_type], SIZES[of_type]
    array = re.match(r"\[(.*); (\d+)\]$", of_type)
    if array:
        size, alignment = size_and_alignment(array.group(1), structs)
        return size * int(array.group(2)), alignment
    return layout(of_type, structs)[1:]


def layout(name, structs):
    """Each field at the next multiple of its alignment, the struct's size a multiple of the largest: lines, size, alignment."""
    lines, at, largest = [], 0, 1
    for field, of_type in structs[name]:
        size, alignment = size_and_alignment(of_type, structs)
        at = -(-at // alignment) * alignment
        lines.append(f"{name}.{field} at {at} size {size}")
        at, largest = at + size, max(largest, alignment)
    at = -(-at // largest) * largest
    return [f"{name} size {at} alignment {largest}"] + lines, at, largest


def c_probe(structs):
    """For C and for C++."""
    lines = ["#include <iflughan.h>", "#include <stdalign.h>", "#include <stddef.h>", "#include <stdio.h>", "int main(void) {"]
    for name, fields in structs.items():
        lines.append(f'    printf("{name} size %zu alignment %zu\\n", sizeof({name}), (size_t)alignof({name}));')
        for field, _ in fields:
            size = f"sizeof((({name} *)0)->{field})"
            lines.append(f'    printf("{name}.{field} at %zu size %zu\\n", offsetof({name}, {field}), {size});')
    return lines + ["    return 0;", "}"]


def rust_probe(structs):
    """structs: (Rust's name, the header's name) -> fields."""
    lines = [
        "use std::mem::{align_of, size_of, MaybeUninit};",
        "#[allow(dead_code)]",
        f'#[path = "{FFI}"]',
        "mod ffi;",
        "fn size_behind<T>(_: *const T) -> usize { size_of::<T>() }",
        "fn main() {",
    ]
    for (own, name), fields in structs.items():
        of_type = f"ffi::{own}"
        lines.append(f'    println!("{name} size {{}} alignment {{}}", size_of::<{of_type}>(), align_of::<{of_type}>());')
        lines.append(f"    let value = MaybeUninit::<{of_type}>::uninit();")
        for field, _ in fields:
            lines.append(f"    let field = unsafe {{ std::ptr::addr_of!((*value.as_ptr()).{field}) }};")
            at = "field as usize - value.as_ptr() as usize"
            lines.append(f'    println!("{name}.{field} at {{}} size {{}}", {at}, size_behind(field));')
    return lines + ["}"]
