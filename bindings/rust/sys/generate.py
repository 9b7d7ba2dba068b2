#!/usr/bin/env python3
"""Writes src/bindings.rs from the header: its constants, structs and calls, with their comments.

    python3 bindings/rust/sys/generate.py           writes the file
    python3 bindings/rust/sys/generate.py --check   fails if the file is not what the header says

The header is read by its own forms: anonymous enums, `typedef struct`, `#define QS_NAME number`, declarations that begin
with QS_API, and inline functions that pass a struct to one of these by its words. Layouts are those of x86-64 (System V), and are asserted in the file at compile time.
"""
import pathlib
import re
import sys

HERE = pathlib.Path(__file__).resolve().parent
HEADER = HERE.parents[2] / "include" / "quic_streams.h"
BINDINGS = HERE / "src" / "bindings.rs"

NUMBERS = {"uint8_t": ("u8", 1), "uint32_t": ("u32", 4), "int32_t": ("i32", 4), "uint64_t": ("u64", 8), "size_t": ("usize", 8)}
COMMENT = re.compile(r"/\*.*?\*/", re.S)
DOC = re.compile(r"/\*\*(?!<)(.*?)\*/", re.S)
OWNED = {"qs_conn", "qs_buffer"}


class Field:
    """A field of a struct or a parameter of a call: its name, its type in Rust, its size, and how many there are."""

    def __init__(self, text):
        words = re.findall(r"\w+|\*", text)
        count = re.search(r"\[(\w+)\]", text)
        if count:
            words = words[:-1]
        self.name = words.pop()
        constant = words[0] == "const"
        base, stars = words[1 if constant else 0], words.count("*")
        self.count = int(count.group(1)) if count else 1
        kind, self.size = NUMBERS.get(base, ("c_void" if base == "void" else base, 0))
        for at in range(stars):
            kind = ("*const " if constant and at == 0 else "*mut ") + kind
        self.size = 8 if stars else self.size
        self.type = f"[{kind}; {self.count}]" if count else kind
        self.zero = f"[0; {self.count}]" if count else "null()" if kind.startswith("*const") else "null_mut()" if stars else "0"


class Header:
    """What the header declares, in its order."""

    def __init__(self, text):
        self.text = text
        bare = COMMENT.sub(" ", text)
        self.macros = [(name, value) for name, value in re.findall(r"^#define (QS_[A-Z_]+) (\w+)$", bare, flags=re.M)]
        self.enums = [re.findall(r"(QS_\w+) = (-?\d+)", body) for body in re.findall(r"^enum \{(.*?)\};", bare, flags=re.M | re.S)]
        found = re.findall(r"^typedef struct (\w+) \{(.*?)\} \1;", bare, flags=re.M | re.S)
        self.structs = {name: self.fields(body) for name, body in found}
        calls = re.findall(r"^QS_API (\w+) (qs_\w+)\((.*?)\);", bare, flags=re.M | re.S)
        self.calls = {name: (result, self.parameters(arguments)) for result, name, arguments in calls}
        calls = re.findall(r"^static inline (\w+) (qs_\w+)\((.*?)\) \{\s*return \2_words\((.*?)\);\s*\}", bare, flags=re.M | re.S)
        self.by_words = {name: (result, self.parameters(arguments), [" ".join(it.split()) for it in passed.split(",")])
                         for result, name, arguments, passed in calls}

    @staticmethod
    def parameters(listed):
        return [] if listed.strip() == "void" else [Field(it) for it in listed.split(",")]

    @staticmethod
    def fields(body):
        fields = []
        for line in body.split(";"):
            names = line.strip().split(",")
            if names != [""]:
                kind = re.match(r"(?:const )?\w+", names[0]).group()
                fields += [Field(names[0])] + [Field(f"{kind} {it}") for it in names[1:]]
        return fields

    def doc(self, declaration):
        """The comment before a declaration, or before the first of a group of them."""
        at = self.text.index(declaration)
        block = None
        for block in DOC.finditer(self.text, 0, at):
            if "@}" in block.group() and block.end() < at:
                block = None
        return block.group(1) if block and "@file" not in block.group() else ""

    def results(self, call):
        """The return values that the comment of a call lists."""
        listed = set(re.findall(r"@retval (QS_\w+)", self.doc(f" {call}(")))
        copied = re.search(r"@copydetails (\w+)", self.doc(f" {call}("))
        return listed | (self.results(copied.group(1)) if copied else set())


def layout(fields):
    """The offset of each field, and the size of the struct."""
    offsets, end, widest = [], 0, 1
    for field in fields:
        end = -(-end // field.size) * field.size
        offsets.append(end)
        end += field.size * field.count
        widest = max(widest, field.size)
    return offsets, -(-end // widest) * widest, widest


def rust_doc(text, indent=""):
    """A comment of the header as one of Rust."""
    text = re.sub(r"^ ?\* ?", "", text.strip(), flags=re.M)
    text = re.sub(r"@name .*\n", "", text).replace("@{", "").strip()
    text = re.sub(r"@param(\[[a-z,]+\])? (\w+)", r"- \2:", text)
    text = re.sub(r"@retval (\w+)", r"- \1:", text)
    text = re.sub(r"@return ", "Returns ", text)
    text = re.sub(r"@copydetails (\w+)", r"Parameters and return values are those of \1.", text)
    text = re.sub(r"(?<![\w`\[])((?:QS|qs)_\w+)(?![\w`])", r"`\1`", text)
    text = re.sub(r"^ +(?=\S)", "  ", text, flags=re.M)
    text = re.sub(r"(?<=\n)(?=- \w+:)", "", text)
    text = re.sub(r"(\n(?:- |  )[^\n]*\n)(?=Parameters and return values)", r"\1\n", text)
    text = re.sub(r"\A(?:(?!- )[^\n]+\n)+(?=- )", lambda it: it.group() + "\n", text)
    return "".join(f"{indent}///{' ' + line if line else ''}\n" for line in text.splitlines())


def constants(header):
    for name, value in header.macros:
        value = value.replace("UINT64_MAX", "u64::MAX")
        kind = "u64" if "MAX" in value else "usize" if name == "QS_MIN_ROOM" else "u32"
        yield f"{rust_doc(header.doc(f'#define {name} '))}pub const {name}: {kind} = {value};\n"
    for enum in header.enums:
        kind = "i32" if enum[0][0] == "QS_OK" else "u32"
        for name, value in enum:
            said = re.search(rf"\b{name} = -?\d+,?\s*/\*\*<(.*?)\*/", header.text, flags=re.S)
            text = " ".join(re.sub(r"^\s*\*? ?", "", said.group(1), flags=re.M).split()) if said else f"`{name}` of the header."
            yield f"/// {text}\npub const {name}: {kind} = {value};\n"


def structs(header):
    for name, fields in header.structs.items():
        if name == "qs_piece":
            continue
        offsets, size, widest = layout(fields)
        derives = "Debug" if name in OWNED else "Clone, Copy, Debug"
        yield rust_doc(header.doc(f"typedef struct {name} ")) + f"#[derive({derives})]\n#[repr(C)]\npub struct {name} {{\n"
        yield "".join(f"    pub {field.name}: {field.type},\n" for field in fields)
        zeros = "".join(f"        {field.name}: {field.zero},\n" for field in fields)
        yield f"}}\n\nimpl {name} {{\n    /// All zero bytes.\n    pub const ZERO: Self = Self {{\n{zeros}    }};\n}}\n\n"
        yield f"const _: () = assert!(size_of::<{name}>() == {size} && align_of::<{name}>() == {widest});\n\n"


def calls(header):
    yield 'extern "C" {\n'
    for name, (result, arguments) in header.calls.items():
        listed = ", ".join(f"{it.name}: {it.type}" for it in arguments)
        answer = "" if result == "void" else f" -> {NUMBERS[result][0]}"
        yield rust_doc(header.doc(f" {name}("), "    ") + f"    pub fn {name}({listed}){answer};\n"
    yield "}\n\n"
    for name, (result, arguments, passed) in header.by_words.items():
        listed = ", ".join(f"{it.name}: {it.type}" for it in arguments)
        words = ", ".join(in_rust(it, arguments) for it in passed)
        yield f"{rust_doc(header.doc(f' {name}('))}///\n/// # Safety\n///\n/// Pointers are valid, as the header says.\n#[inline]\n"
        yield f"pub unsafe fn {name}({listed}) -> {NUMBERS[result][0]} {{\n    {name}_words({words})\n}}\n\n"


def in_rust(word, arguments):
    """What an inline function passes on: a parameter, a struct as its words, or how many words that has."""
    struct = re.fullmatch(r"\((?:const )?uint64_t \*\)(\w+)|&(\w+)->\w+", word)
    if struct:
        return f"{struct.group(1) or struct.group(2)}.cast()"
    size = re.fullmatch(r"sizeof \*(\w+) / 8", word)
    if size:
        kind = next(it.type for it in arguments if it.name == size.group(1))
        return f"size_of::<{kind.split()[-1]}>() / 8"
    return word


def tests(header):
    yield "#[cfg(test)]\nmod tests {\n    use super::*;\n    use std::mem::MaybeUninit;\n    use std::ptr::addr_of;\n\n"
    yield "    // Where a field stands in its struct.\n    macro_rules! offset {\n        ($name:ident, $field:ident) => {{\n"
    yield "            let place = MaybeUninit::<$name>::uninit();\n            // SAFETY: the address of a field is taken, and nothing is read.\n"
    yield "            let field = unsafe { addr_of!((*place.as_ptr()).$field) };\n"
    yield "            field as usize - place.as_ptr() as usize\n        }};\n    }\n\n    #[test]\n    fn each_field_stands_at_its_offset() {\n"
    for name, fields in header.structs.items():
        if name != "qs_piece":
            for field, offset in zip(fields, layout(fields)[0]):
                yield f"        assert_eq!(offset!({name}, {field.name}), {offset});\n"
    yield "    }\n}\n"


def bindings(header):
    parts = ["// Made from include/quic_streams.h by generate.py.\n\n",
             "use std::ffi::c_void;\nuse std::mem::{align_of, size_of};\nuse std::ptr::{null, null_mut};\n\n",
             *constants(header), "\n", *structs(header), *calls(header), "\n", *tests(header)]
    return "".join(parts)


def formatted(text):
    """As rustfmt writes it."""
    import subprocess
    ran = subprocess.run(["rustfmt", "--edition", "2021"], input=text, stdout=subprocess.PIPE, text=True, check=True)
    return ran.stdout


def main():
    text = formatted(bindings(Header(HEADER.read_text(encoding="utf-8"))))
    if "--check" in sys.argv[1:]:
        return 0 if BINDINGS.read_text(encoding="utf-8") == text else f"{BINDINGS} is not what the header says: run {__file__}"
    BINDINGS.write_text(text, encoding="utf-8")
    return 0


if __name__ == "__main__":
    sys.exit(main())
