"""Holds the header, the crate quic-streams-sys, the library's exports and their contracts to each other, by their texts.

`problems(texts)` takes the files by their paths and returns a list of sentences: each says where two of them differ. The header is
read by the generator of the crate (`bindings/rust/sys/generate.py`), the exports and their contracts by their forms in
`crates/quic_streams_c`.

Return values are compared in three forms: those that the comments of the header name for a call, those that its contract names, itself
and by the definitions that it cites, and those that its body reaches. What this does not see: when a value is returned, and whether a
value that the contract names can be; a case that no argument reaches counts as well. Definitions of other crates name no return value."""
import glob
import importlib.util
import os
import pathlib
import re

ROOT = os.path.dirname(os.path.dirname(os.path.abspath(__file__)))
HEADER = "include/quic_streams.h"
BINDINGS = "bindings/rust/sys/src/bindings.rs"
EXPORTS = "crates/quic_streams_c/src"
CONTRACTS = "crates/quic_streams_c/specs"

SPEC = importlib.util.spec_from_file_location("generate", os.path.join(ROOT, "bindings/rust/sys/generate.py"))
generate = importlib.util.module_from_spec(SPEC)
SPEC.loader.exec_module(generate)

# Structs of the exports by their names in the header, and fields and parameters that have another name there.
STRUCTS = {"RawError": "qs_error", "RawSlice": "qs_slice", "RawBuffer": "qs_buffer", "Handle": "qs_conn"}
# Structs that grow, by the functions of the exports that read their words or list them.
READ_WORDS = {"config_at": "qs_config", "limits_at": "qs_peer_limits"}
FILLED_WORDS = {"event_words": "qs_event", "info_words": "qs_info", "stats_words": "qs_stats", "due_words": "qs_due", "payload_words": "qs_payload"}
FIELDS = {"max_remote_bi": "max_remote_bidi", "max_data": "initial_max_data", "max_streams_bidi": "initial_max_streams_bidi",
          "max_streams_uni": "initial_max_streams_uni", "stream_data_uni": "initial_max_stream_data_uni",
          "stream_data_bidi_local": "initial_max_stream_data_bidi_local", "bytes": "data", "slot": "at",
          "stream_data_bidi_remote": "initial_max_stream_data_bidi_remote"}
PARAMETERS = {"handle": "conn", "bytes": "data", "out": "data", "place": "data", "told": "event", "room": "bytes"}
# A slice is two parameters in C: its name there, and that of its length.
LENGTHS = {"bytes": "len", "out": "cap", "payload": "len", "slices": "max", "words": "count"}
CODES = {"OK": "QS_OK", "DONE": "QS_DONE", "END": "QS_END", "OTHER_FRAME": "QS_OTHER_FRAME", "NO_MEMORY": "QS_ERR_NOMEM"}
EVENTS = {"StreamEvent::Opened": "OPENED", "StreamEvent::Readable": "READABLE", "StreamEvent::Writable": "WRITABLE",
          "StreamEvent::Finished": "FINISHED", "StreamEvent::Stopped": "STOPPED", "StreamEvent::Available": "AVAILABLE",
          "DatagramEvent::Received": "DATAGRAM", "DatagramEvent::Unblocked": "DATAGRAM_ROOM", "Some(Closed": "CLOSED"}


def texts():
    """The files that are compared, by their paths."""
    found = glob.glob(os.path.join(ROOT, EXPORTS, "*.rt")) + glob.glob(os.path.join(ROOT, CONTRACTS, "*.antt"))
    paths = [HEADER, BINDINGS] + [os.path.relpath(it, ROOT) for it in sorted(found)]
    return {path: (pathlib.Path(ROOT) / path).read_text(encoding="utf-8") for path in paths}


def code_name(name):
    return CODES.get(name, f"QS_ERR_{name}")


class Exports:
    """What the crate exports: structs, constants, calls with their parameters, and which return values each reaches."""

    def __init__(self, files):
        files = [re.sub(r"//[^\n]*", "", it) for it in files]
        text = "\n".join(files)
        self.codes = {code_name(name): int(number) for name, number in re.findall(r"^pub const (\w+): i32 = (-?\d+);", text, flags=re.M)}
        found = re.findall(r"#\[repr\(C\)\]\s*(?:#\[[^\]]*\]\s*)*pub struct (\w+) \{(.*?)\n\}", text, flags=re.S)
        self.structs = {STRUCTS[name]: self.fields(body) for name, body in found if name in STRUCTS}
        self.structs.update(self.words(text))
        self.version = [int(number, 0) for number in re.findall(r"^const VERSION: u32 = (\w+);", text, flags=re.M)]
        self.bodies = [self.functions(it) for it in files]
        exported = re.findall(r'#\[unsafe\(no_mangle\)\]\s*pub extern "C" fn (\w+)\((.*?)\)(?: -> (\w+))?\s*ensures \{ (\w+)', text, flags=re.S)
        self.calls = {name: (result or "void", self.asked(list(self.parameters(listed)), clause)) for name, listed, result, clause in exported}
        clauses = re.findall(r'pub extern "C" fn (\w+)\([^{]*?\)(?: -> \w+)?\s*((?:ensures[^\n]*\n\s*)+)\{\n', text)
        self.clauses = dict(clauses)
        self.events = {}
        for pattern, number in re.findall(r"((?:Stream|Datagram)Event::\w+|Some\(Closed)[^=]*=>\s*(?:\{\s*)?(?:Some\()?event\(\s*(\d+)", text):
            self.events["QS_EVENT_" + EVENTS[pattern]] = int(number)

    @staticmethod
    def fields(body):
        """The fields of a struct: names and types as the header has them."""
        found = re.findall(r"^ +pub (\w+): ([^,\n]+),", body, flags=re.M)
        return [(FIELDS.get(name, name), Exports.type_of(kind)) for name, kind in found]

    @staticmethod
    def words(text):
        """The fields of the structs that grow, in the order of their words."""
        structs = {}
        for function, struct in READ_WORDS.items():
            body = re.search(rf"^fn {function}\(.*?\n\}}\n", text, flags=re.M | re.S).group()
            read = re.findall(r"(\w+): word_at\(words, (\d+)\),", body)
            if [int(index) for _, index in read] != list(range(len(read))):
                raise AssertionError(f"{function} reads other words than one after another: {read}")
            structs[struct] = [name for name, _ in read]
        for function, struct in FILLED_WORDS.items():
            listed = re.search(rf"^fn {function}\(.*?^ +\[(.*?)\]\n\}}\n", text, flags=re.M | re.S).group(1)
            structs[struct] = re.findall(r"(?:\w+\.)?(\w+)(?: as u64)?,?\s*(?:,|$)", listed)
        return {struct: [(FIELDS.get(name, name), "u64") for name in names] for struct, names in structs.items()}

    @staticmethod
    def type_of(kind):
        """A type of Rattle as quic-streams-sys spells it."""
        kind = kind.strip()
        if kind in ("Slot", "BufferSlot"):
            return "*mut c_void"
        for front, pointer in (("&mut ", "*mut "), ("&", "*const ")):
            if kind.startswith(front):
                return pointer + Exports.type_of(kind[len(front):])
        return STRUCTS.get(kind, kind)

    @staticmethod
    def parameters(listed):
        for name, kind in re.findall(r"(\w+): ([^,]+)", listed):
            if name == "alloc":
                continue
            array = re.fullmatch(r"(&(?:mut )?)\[(\w+)\]", kind.strip())
            if array:
                yield PARAMETERS.get(name, name), Exports.type_of(array.group(1) + array.group(2))
                yield LENGTHS[name], "usize"
            else:
                yield PARAMETERS.get(name, name), Exports.type_of(kind)

    @staticmethod
    def asked(parameters, clause):
        """A question leaves the session as it is, by its contract: the header has a const handle for it."""
        constant = [(name, kind.replace("*mut qs_conn", "*const qs_conn")) for name, kind in parameters]
        return constant if clause == "Questions" else parameters

    @staticmethod
    def functions(text):
        """The body of each function of a file, without its clauses."""
        bodies = {}
        for head in re.finditer(r"^((?: {4})?)(?:pub(?:\(crate\))? )?(?:extern \"C\" )?fn (\w+)", text, flags=re.M):
            end = text.index(f"\n{head.group(1)}}}\n", head.start())
            lines = text[head.start():end].splitlines()
            bodies[head.group(2)] = "\n".join(it for it in lines if not re.match(r"\s*(?:ensures|requires)\b", it))
        return bodies

    def returns(self, call):
        """The return values that a call can reach: those named by it, and by the functions that it calls."""
        seen, found = set(), set()
        left = [(functions, call) for functions in self.bodies if call in functions]
        while left:
            functions, name = left.pop()
            if (id(functions), name) in seen:
                continue
            seen.add((id(functions), name))
            body = functions[name]
            found |= {it for it in map(code_name, re.findall(r"\b[A-Z_]{2,}\b", body)) if it in self.codes}
            for called in re.findall(r"(?<![\w.:])(\w+)\(", body.partition("{")[2]):
                left += [(it, called) for it in ([functions] if called in functions else self.bodies) if called in it]
        return found


class Contracts:
    """The definitions that the contracts of the exports cite, by their names."""

    def __init__(self, files):
        self.bodies = {}
        for text in files:
            text = re.sub(r"--[^\n]*|^(?:pub )?use [^\n]*|^pub mod [^\n]*", "", text, flags=re.M)
            heads = list(re.finditer(r"^(?:pub |abbrev |unfoldable |record )+([\w-]+)", text, flags=re.M))
            for head, end in zip(heads, [it.start() for it in heads[1:]] + [len(text)]):
                self.bodies[head.group(1)] = text[head.end():end]

    def returns(self, clauses):
        """The return values that clauses name, themselves and by what they cite."""
        seen, left, found = set(), [clauses], set()
        while left:
            text = left.pop()
            found |= {int(number) for number in re.findall(r"\bpos (\d+)", text)}
            found |= {-1 - int(number) for number in re.findall(r"\bnegsuc (\d+)", text)}
            cited = {it for it in re.findall(r"[A-Za-z_][\w-]*", text) if it in self.bodies} - seen
            seen |= cited
            left += [self.bodies[it] for it in cited]
        return found


def of_header(header):
    """Constants of the header by their names."""
    return {name: int(value) for enum in header.enums for name, value in enum}


def compare_structs(header, exports):
    if set(header.structs) - {"qs_piece"} != set(exports.structs):
        yield f"structs in one of the two alone: {sorted(set(header.structs) ^ set(exports.structs))}"
    for name, fields in exports.structs.items():
        declared = [(it.name, it.type) for it in header.structs.get(name, [])]
        if declared != fields:
            yield f"{name}: the header has {declared}, the library {fields}"


def compare_calls(header, exports):
    if set(header.calls) != set(exports.calls):
        yield f"calls in one of the two alone: {sorted(set(header.calls) ^ set(exports.calls))}"
    for name in set(header.calls) & set(exports.calls):
        result, parameters = header.calls[name]
        declared = (generate.NUMBERS.get(result, (result,))[0], [(it.name, it.type) for it in parameters])
        if declared != exports.calls[name]:
            yield f"{name}: the header has {declared}, the library {exports.calls[name]}"


def compare_words(header):
    """Each call with words is made by an inline function, which passes on its arguments, and a struct that grows as its words."""
    made = {f"{name}_words" for name in header.by_words}
    wanted = {name for name, (_, parameters) in header.calls.items() if "words" in {it.name for it in parameters}}
    if made != wanted:
        yield f"calls with words and inline functions differ by {sorted(made ^ wanted)}"
    growing = set(READ_WORDS.values()) | set(FILLED_WORDS.values())
    for name, (result, parameters, passed) in header.by_words.items():
        listed = [it.name for it in parameters]
        struct = parameters[-1].type.split()[-1]
        constant = "const " if parameters[-1].type.startswith("*const") else ""
        first = (header.structs.get(struct) or [generate.Field("uint64_t none")])[0].name
        words = [f"({constant}uint64_t *){listed[-1]}", f"sizeof *{listed[-1]} / 8"]
        passed = [words[0] if it == f"&{listed[-1]}->{first}" else it for it in passed]
        called, others = header.calls.get(f"{name}_words", ("", []))
        if passed != listed[:-1] + words or result != called or struct not in growing:
            yield f"{name} passes on {passed}"
        if [(it.name, it.type) for it in others[:-2]] != [(it.name, it.type) for it in parameters[:-1]]:
            yield f"{name} has other parameters than {name}_words"


def compare_numbers(header, exports):
    constants = of_header(header)
    wanted = {**exports.codes, **exports.events}
    for name, number in wanted.items():
        if constants.get(name) != number:
            yield f"{name} is {constants.get(name)} in the header and {number} in the library"
    named = {name for name in constants if re.match(r"QS_(OK|DONE|END|OTHER_FRAME|ERR_\w+|EVENT_\w+)$", name)}
    if named != set(wanted):
        yield f"numbers in one of the two alone: {sorted(named ^ set(wanted))}"
    texts_of = re.findall(r'"((?:[^"])*)"', re.search(r"texts\[\] = \{(.*?)\};", header.text, flags=re.S).group(1))
    if len(texts_of) != len(exports.codes):
        yield f"qs_strerror has {len(texts_of)} texts for {len(exports.codes)} return values"


def documented(header, call):
    """The return values of a call by its comment and by what the head of the header says of all calls."""
    _, parameters = header.calls[call]
    if not parameters:
        return set()
    listed = header.results(call.removesuffix("_words"))
    if parameters[0].type in ("*mut qs_conn", "*const qs_conn") and call not in ("qs_conn_open_words", "qs_conn_free"):
        listed.add("QS_ERR_CLOSED")
    bounded = {"id", "dir", "app_code", "limit", "final_size", "parts"} & {it.name for it in parameters if "*" not in it.type}
    if bounded or call == "qs_set_receive_window":
        listed.add("QS_ERR_ARGUMENT")
    return listed


def compare_returns(header, exports, contracts):
    """The return values of each call: those that the header names, those that its contract names, and those that its body reaches."""
    names = {number: name for name, number in exports.codes.items()}
    for call in set(header.calls) & set(exports.calls):
        says, does = documented(header, call), exports.returns(call)
        permitted = {names.get(it, it) for it in contracts.returns(exports.clauses.get(call, ""))}
        if says != does:
            yield f"{call}: said but never returned {sorted(says - does)}, returned but not said {sorted(does - says)}"
        if says != permitted and exports.calls[call][0] == "i32":
            yield f"{call}: the header names {sorted(says)}, its contract {sorted(map(str, permitted))}"


def compare_versions(header, exports):
    major, minor, patch = (int(dict(header.macros)[f"QS_VERSION_{part}"]) for part in ("MAJOR", "MINOR", "PATCH"))
    if exports.version != [major << 16 | minor << 8 | patch]:
        yield f"the header is version {major}.{minor}.{patch}, the library {exports.version}"
    if f'#define QS_VERSION "{major}.{minor}.{patch}"\n' not in header.text:
        yield "QS_VERSION is another version than its parts"


def problems(files):
    """Each difference, in a sentence."""
    header = generate.Header(files[HEADER])
    exports = Exports([text for path, text in files.items() if path.startswith(EXPORTS)])
    contracts = Contracts([text for path, text in files.items() if path.startswith(CONTRACTS)])
    found = [*compare_structs(header, exports), *compare_calls(header, exports), *compare_words(header)]
    found += [*compare_numbers(header, exports), *compare_returns(header, exports, contracts), *compare_versions(header, exports)]
    if generate.formatted(generate.bindings(header)) != files[BINDINGS]:
        found.append(f"{BINDINGS} is not what {HEADER} says: run bindings/rust/sys/generate.py")
    return found


def layout_in_c(bindings):
    """A C file that asserts size, offset and width of each field as quic-streams-sys has them."""
    lines = ['#include "quic_streams.h"', "#define WIDTH(type, field) sizeof(((type *)0)->field)"]
    if not re.search(r"^pub struct qs_conn", bindings, flags=re.M):
        raise AssertionError("quic-streams-sys has no structs")
    lines.insert(0, "#ifdef __cplusplus\n#define CHECK(holds) static_assert(holds, #holds)\n#else\n#define CHECK(holds) _Static_assert(holds, #holds)\n#endif")
    for name, size in re.findall(r"assert!\(size_of::<(\w+)>\(\) == (\d+)", bindings):
        lines.append(f"CHECK(sizeof({name}) == {size});")
    for name, field, offset in re.findall(r"offset!\((\w+), (\w+)\), (\d+)\)", bindings):
        kind = re.search(rf"pub struct {name} \{{.*?pub {field}: ([^;,]+(?:; \d+\])?),", bindings, flags=re.S).group(1)
        width = {"u32": 4, "[u8; 80]": 80}.get(kind, 8)
        lines += [f"CHECK(offsetof({name}, {field}) == {offset});", f"CHECK(WIDTH({name}, {field}) == {width});"]
    for name, value in re.findall(r"^pub const (QS_\w+): [iu](?:32|size) = (-?\d+);", bindings, flags=re.M):
        lines.append(f"CHECK({name} == {value});")
    return "\n".join(lines) + "\n"
