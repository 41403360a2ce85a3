"""Holds include/raimsklo.h, the Rust crate, the Python package and the comparison to the exports of the Rattle library,
the exports to the library's functions, and the hosts to one another.

Each exported function stands in the header with the same arguments in the same order, a slice being a pointer and a
length; the two structs have the same fields, in the same order, everywhere. All hosts have one version, the first of
CHANGELOG.md; the same names, texts and advice for the library's numbers; and the same words to know before use.
"""

import ast
import glob
import os
import re
import sys

ROOT = os.path.join(os.path.dirname(os.path.abspath(__file__)), "..")
KINDS = {"f64": "double", "usize": "size_t", "u8": "uint8_t", "Options": "raimsklo_options", "Reply": "raimsklo_answer"}
HEADER, RUST, PYTHON = "include/raimsklo.h", "hosts/rust/src/*.rs", "hosts/python/raimsklo/*.py"

# Where Rust and Python put an index or a value into the header's text.
FILLED = {
    9: ("an entry of rtol", "rtol[INDEX]"),
    10: ("an entry of atol", "atol[INDEX]"),
    11: ("the first step", "the first step VALUE"),
    12: ("of a state", "of state INDEX"),
}


def read(path):
    with open(os.path.join(ROOT, path), encoding="utf-8") as file:
        return file.read()


def read_all(pattern):
    """The texts of the files that match, the pattern below the root."""
    return [read(path) for path in sorted(glob.glob(os.path.join(ROOT, pattern)))]


# ---- functions and structs ----


def exports():
    """Name → (arguments, result), in the words of the header."""
    found = {}
    text = read("crates/raimsklo_c/src/lib.rt")
    for name, inside, result in re.findall(r'pub extern "C" fn (\w+)\(([^)]*)\) -> (\w+)', text):
        arguments = []
        for piece in filter(None, (a.strip() for a in inside.split(","))):
            argument, kind = (p.strip() for p in piece.split(":"))
            slice_of = re.fullmatch(r"&(mut )?\[(\w+)\]", kind)
            if slice_of:
                const = "" if slice_of.group(1) else "const "
                arguments += [(argument, f"{const}{KINDS[slice_of.group(2)]} *"), (argument + "_len", "size_t")]
            else:
                arguments.append((argument, KINDS[kind]))
        found[name] = (arguments, KINDS[result])
    return found


def header_code():
    """The header without its comments."""
    return re.sub(r"/\*.*?\*/", "", read(HEADER), flags=re.S)


def declared():
    """The header's functions, as exports() has them."""
    found = {}
    for result, name, inside in re.findall(r"^(\w+) (raimsklo_\w+)\(([^)]*)\);", header_code(), flags=re.M):
        arguments = []
        for piece in (a.strip() for a in inside.split(",")):
            if piece not in ("", "void"):
                kind, argument = re.fullmatch(r"(.*?[\s*])(\w+)", piece, flags=re.S).groups()
                arguments.append((argument, re.sub(r"\s+", " ", kind).strip()))
        found[name] = (arguments, result)
    return found


def header_fields(name):
    inside = re.search(r"typedef struct %s \{(.*?)\}" % name, header_code(), flags=re.S).group(1)
    out = []
    for kind, names in re.findall(r"(\w+) ([\w, ]+);", inside):
        out += [(n.strip(), kind) for n in names.split(",")]
    return out


def struct_fields(texts, name):
    """The fields of a struct of Rattle or of Rust, wherever it stands in the texts."""
    for text in texts:
        inside = re.search(r"struct %s \{(.*?)\n\}" % name, text, flags=re.S)
        if inside:
            fields = re.findall(r"^\s*(?:pub(?:\(\w+\))? )?(\w+): (\w+),", inside.group(1), flags=re.M)
            return [(field, KINDS[kind]) for field, kind in fields]
    return None


def python_fields(texts, name):
    kinds = {"c_size_t": "size_t", "c_double": "double"}
    for text in texts:
        inside = re.search(r"class %s\(Structure\):(.*?)\]\n" % name, text, flags=re.S)
        if inside:
            return [(field, kinds[kind]) for field, kind in re.findall(r'\("(\w+)", (\w+)\)', inside.group(1))]
    return None


def functions_and_structs(same):
    ours, theirs = exports(), declared()
    same("the functions", sorted(ours), sorted(theirs))
    for name in sorted(set(ours) & set(theirs)):
        same(name, ours[name], theirs[name])
    for name, path, host_name, c_name in (
        ("Options", "crates/refusals/src/lib.rt", "Options", "raimsklo_options"),
        ("Reply", "crates/answers/src/lib.rt", "Answer", "raimsklo_answer"),
    ):
        fields = struct_fields([read(path)], name)
        same(f"{name} in the header", fields, header_fields(c_name))
        same(f"{name} in the Rust crate", fields, struct_fields(read_all(RUST), host_name))
        same(f"{name} in the comparison", fields, struct_fields([read("oracle/runs/src/calls.rs")], name))
        same(f"{name} in the Python package", fields, python_fields(read_all(PYTHON), host_name))
    return len(ours)


# ---- exports and the library's functions ----


def stated(crate):
    """Name → arguments, result and clauses of each function that the crate offers, without layout."""
    found = {}
    for text in read_all(f"crates/{crate}/src/*.rt"):
        for name, said in re.findall(r'^pub (?:extern "C" )?fn (\w+)(.*?)^\{$', text, flags=re.S | re.M):
            found[name] = re.sub(r",\)", ")", re.sub(r"\s+", "", said))
    return found


def stated_again(same):
    """A static library NAME_c exports the functions of the library NAME that bear its name, with their clauses."""
    for crate in ("raimsklo", "probe"):
        ours = {name: said for name, said in stated(crate).items() if name.startswith(f"{crate}_")}
        theirs = stated(f"{crate}_c")
        same(f"the functions of {crate}_c", sorted(ours), sorted(theirs))
        for name in sorted(set(ours) & set(theirs)):
            same(f"arguments and clauses of {name} in {crate}_c", ours[name], theirs[name])


# ---- versions and licence ----


def first(pattern, path):
    """What the pattern's group matches first in the file, or None."""
    if not os.path.exists(os.path.join(ROOT, path)):
        return None
    found = re.search(pattern, read(path), flags=re.M)
    return found.group(1) if found else None


def licence(same):
    """The Rust crate's package has copies of the licence and the notice."""
    for name in ("LICENSE", "NOTICE"):
        same(f"hosts/rust/{name} is {name}", True, read(f"hosts/rust/{name}") == read(name))


def versions(same):
    parts = ("MAJOR", "MINOR", "PATCH")
    version = ".".join(first(r"^#define RAIMSKLO_VERSION_%s (\d+)$" % part, HEADER) for part in parts)
    quoted = r' = "([^"]+)"'
    for path, pattern in (
        ("CHANGELOG.md", r"^## (\d+\.\d+\.\d+)"),
        ("hosts/rust/Cargo.toml", "^version" + quoted),
        ("hosts/python/raimsklo/__init__.py", "^__version__" + quoted),
    ):
        same(f"version of {path}", version, first(pattern, path))
    told = first("^version" + quoted, "hosts/python/pyproject.toml")
    if told is not None:  # it may take the package's instead
        same("version of hosts/python/pyproject.toml", version, told)
    return version


# ---- names and texts of the numbers ----


def joined(literals):
    """Adjacent C string literals as one text."""
    return "".join(ast.literal_eval(literal) for literal in re.findall(r'"(?:\\.|[^"\\])*"', literals))


def header_texts():
    """Name → number, number → message, number → advice."""
    code = header_code()
    numbers = {name: int(number) for name, number in re.findall(r"RAIMSKLO_(\w+) = (\d+)", code)}
    tables = []
    for function in ("raimsklo_message", "raimsklo_advice"):
        inside = re.search(r"%s\(size_t number\) \{(.*?)\n\}" % function, code, flags=re.S).group(1)
        cases = re.findall(r'case RAIMSKLO_(\w+):\s*return((?:\s*"(?:\\.|[^"\\])*")+);', inside)
        tables.append({numbers[name]: joined(literals) for name, literals in cases})
    return numbers, tables[0], tables[1]


def placeholders(text):
    """INDEX and VALUE for what a format string puts in."""
    return re.sub(r"\{value(?:[:!][^}]*)?\}", "VALUE", re.sub(r"\{index\}", "INDEX", text))


def rust_literals():
    """The string literals of the Rust crate, comments apart."""
    token = r'//[^\n]*|/\*.*?\*/|r(#*)".*?"\1|"((?:\\.|[^"\\])*)"|' + r"'(?:\\.|[^'\\])'"
    found = set()
    for text in read_all(RUST):
        for match in re.finditer(token, text, flags=re.S):
            if match.group(2) is not None:
                literal = re.sub(r"\\\n\s*", "", match.group(2)).replace('\\"', '"')
                found.add(placeholders(literal))
    return found


def python_tables(names):
    """(name, dict) of each table with one of these names, with or without _ before it, anywhere in the package."""
    constants, found, assigned = {}, [], []

    def value(node):
        if isinstance(node, (ast.Name, ast.Attribute)):
            return constants[node.id if isinstance(node, ast.Name) else node.attr]
        if isinstance(node, ast.BinOp) and isinstance(node.op, ast.Add):
            return value(node.left) + value(node.right)
        return ast.literal_eval(node)

    def entries(table):
        for key, text in zip(table.keys, table.values):
            try:
                yield value(key), placeholders(value(text))
            except (KeyError, ValueError):  # neither a literal nor a constant: its number counts as missing
                pass

    for node in (node for text in read_all(PYTHON) for node in ast.parse(text).body):
        if isinstance(node, ast.AnnAssign) and node.value is not None:
            assigned.append((node.target, node.value))
        for target in node.targets if isinstance(node, ast.Assign) else ():
            several = isinstance(target, ast.Tuple) and isinstance(node.value, ast.Tuple)
            assigned += zip(target.elts, node.value.elts) if several else [(target, node.value)]
    assigned = [(target.id, node) for target, node in assigned if isinstance(target, ast.Name)]
    constants.update((name, node.value) for name, node in assigned if isinstance(node, ast.Constant))
    for name, node in assigned:
        if name.lstrip("_") in names and isinstance(node, ast.Dict):
            found.append((name.lstrip("_"), dict(entries(node))))
    return found


def texts(same):
    numbers, messages, advice = header_texts()
    same("numbers with a message", sorted(messages), list(range(1, 18)) + list(range(100, 104)) + list(range(110, 116)))
    same("numbers with advice", sorted(advice), [112, 113, 114, 115])
    refusals = {number: text for number, text in messages.items() if number < 100}
    for number, (told, filled) in FILLED.items():
        refusals[number] = refusals[number].replace(told, filled)
    questions = {number: text for number, text in messages.items() if 100 <= number < 110}
    ends = {number: text for number, text in messages.items() if number >= 110}

    expected = {"REFUSALS": refusals, "ENDS": ends, "ADVICE": advice}
    tables = python_tables(expected)
    same("the tables of the Python package", sorted(expected), sorted({name for name, _ in tables}))
    for name, there in tables:
        for number in sorted(set(expected[name]) | set(there)):
            same(f"{number} in the Python package's {name}", expected[name].get(number, ""), there.get(number))

    literals = rust_literals()
    for table in (refusals, questions, ends, advice):
        for number, text in sorted(table.items()):
            same(f"{number} in the Rust crate, as a literal", text, text if text in literals else None)
    enum = re.search(r"enum Reason \{(.*?)\n\}", "".join(read_all(RUST)), flags=re.S)
    reasons = re.findall(r"^\s*(\w+) = (\d+),", enum.group(1) if enum else "", flags=re.M)
    named = {name[len("REFUSED_"):]: number for name, number in numbers.items() if name.startswith("REFUSED_")}
    camel = {"".join(word.capitalize() for word in name.split("_")): number for name, number in named.items()}
    same("the names of refusals in the Rust crate", camel, {name: int(number) for name, number in reasons})
    return len(messages)


def words(text):
    """A text's words in one line, without the marks of comments and of emphasis."""
    return " ".join(re.sub(r"[*`]", "", re.sub(r"^\s*(?:/\*|\*|//!|///|//|#)", "", text, flags=re.M)).split())


def know_before_use(same):
    told = re.search(r"Know before use: .*? a pose comes only from an accepted step\.", words(read(HEADER)))
    same("'Know before use' in the header", True, told is not None)
    crate = "hosts/rust/README.md"  # lib.rs includes it
    for host, pattern in (("Rust crate", crate), ("Python package", PYTHON)):
        there = told is not None and any(told.group(0) in words(text) for text in read_all(pattern))
        same(f"'Know before use' in the {host}, in the header's words", True, there)


def main():
    wrong = []

    def same(what, ours, theirs):
        if ours != theirs:
            wrong.append(f"{what}\n    expected: {ours}\n    there is: {theirs}")

    functions = functions_and_structs(same)
    stated_again(same)
    licence(same)
    version = versions(same)
    numbers = texts(same)
    know_before_use(same)
    for line in wrong:
        print("differs: " + line)
    print(
        f"header, Rust, Python and the comparison: {functions} functions, 2 structs, version {version}, "
        f"texts of {numbers} numbers, {len(wrong)} differ"
    )
    return 1 if wrong else 0


if __name__ == "__main__":
    sys.exit(main())
