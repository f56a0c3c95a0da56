#!/usr/bin/env python3
"""Writes docs/API.md from the sources: the public names of each crate that programs call, with their signatures and the first
sentence of the doc comment of each, and by names alone those of `properties_tools`.

    tools/api.py            writes the page
    tools/api.py --check    compares it, and ends with 1 where it is not what the sources say

A name is public where `lib.rt` of its crate, or a public module of it, has or re-exports it. What a crate re-exports of another
one is shown with it, and left out of that other one's section.
"""
import pathlib
import re
import sys
import textwrap

sys.dont_write_bytecode = True
from wrap import WIDTH, wrapped

TOP = pathlib.Path(__file__).resolve().parent.parent
FOR_CALLERS = ["java_properties", "counted_io"]
INNER = ["properties_tools"]
ABOUT = {
    "java_properties": "The library. The functions of the module `laws` do nothing when they run; their contracts are laws.",
    "counted_io": "Readers and writers that count their I/O errors. `Counted` makes one of any reader or writer.",
    "properties_tools": "What the programs `propfilter` and `propedit` do, over any streams: the names of each module, and in brackets the functions of a type. What each does stands beside it in the source. [CALLING](CALLING.md) shows `filter`.",
}
ITEM = re.compile(r"^(    )?pub (const fn|fn|struct|enum|trait|const|mod|use)\b")
IMPL = re.compile(r"impl(?:<.*?>)? (?:(?P<of>[\w:]+(?:<.*>)?) for )?(?P<type>&.*?\w+|\w+)")
DEFINED = re.compile(r"^(?:pub(?:\(\w+\))? )?(?:struct|enum|trait) (\w+)", re.M)
SENTENCE = re.compile(r"(?:`[^`]*`|[^`.]|\.(?!\s|$))*\.?")


def source_of(path):
    """The folder src/ that a file is in."""
    return next(parent for parent in path.parents if parent.name == "src")


def files(crate):
    """The source files that are compiled outside tests, lib.rt first."""
    source = TOP / "crates" / crate / "src"
    found = [path for path in sorted(source.rglob("*.rt")) if "tests" not in path.with_suffix("").parts]
    return sorted(found, key=lambda path: path.name != "lib.rt")


def uses(path, module=""):
    """The names that a file re-exports, or a module within it, each with the file of the module that it has them from."""
    source = source_of(path)
    folder = source if path.stem == "lib" else path.with_suffix("")
    text = dict(modules_within(path))[module] if module else path.read_text()
    for use in re.findall(r"^pub use ([^;]+);", text, re.M):
        modules, group = re.match(r"((?:\w+::)*)(.*)", use, re.S).groups()
        first, *rest = modules.split("::")[:-1]
        if first == "crate":
            of = source.joinpath(*rest)
        elif (TOP / "crates" / first / "src").is_dir():
            of = (TOP / "crates" / first / "src").joinpath(*(rest or ["lib"]))
        else:
            of = folder.joinpath(first, *rest)
        yield from ((name, of.with_suffix(".rt")) for name in re.findall(r"(\w+)\s*(?:,|\}|$)", group))


def modules_within(path):
    """The public modules whose braces stand in a file, each with the text between these."""
    return [(name, re.sub("^    ", "", text, flags=re.M)) for name, text in re.findall(r"^pub mod (\w+) {\n(.*?)^}", path.read_text(), re.M | re.S)]


def exported(crate):
    """The module from which a caller has each name that the root of the crate and its public modules re-export, by the
    name and its file, and the module of each of their files. The root is the empty text."""
    source = TOP / "crates" / crate / "src"
    names, pages, left = {}, {}, [(source / "lib.rt", "")]
    while left:
        path, module = left.pop(0)
        pages[path] = module
        for inner in ["", *(name for name, _ in modules_within(path))]:
            for name, of in uses(path, inner):
                # A module may re-export what it has from another.
                while of and of.exists():
                    names.setdefault((name, of), f"{module}::{inner}".strip(":"))
                    of = dict(uses(of)).get(name)
        folder = source if path.stem == "lib" else path.with_suffix("")
        for inner in re.findall(r"^pub mod (\w+);", path.read_text(), re.M):
            left.append((folder / (inner + ".rt"), f"{module}::{inner}".removeprefix("::")))
    return names, pages


def first_sentence(comment):
    """Of a doc comment's lines."""
    text = " ".join(" ".join(comment).split("\0")[0].split())
    text = re.sub(r"\[(`[^`]+`)\](?:\([^)]*\))?", r"\1", text)
    return SENTENCE.match(text)[0].strip()


def code_and_docs(path):
    """The lines of a file without comments and tests, and the first sentence of the doc comment of each line that has one."""
    lines, docs, comment, in_attribute = [], {}, [], False
    for line in path.read_text().split("#[cfg(test)]\nmod tests {")[0].splitlines():
        stripped = line.strip()
        if stripped.startswith("///"):
            comment.append(stripped[3:].strip() or "\0")
        elif not stripped.startswith("//"):
            lines.append(line)
            in_attribute = in_attribute or stripped.startswith("#[")
            if in_attribute:
                in_attribute = not stripped.endswith("]")
            elif comment and stripped:
                docs[len(lines) - 1] = first_sentence(comment)
                comment = []
    return lines, docs


def filled(text, front):
    """A text as lines that begin so."""
    return textwrap.wrap(text, WIDTH, initial_indent=front, subsequent_indent=front, break_long_words=False, break_on_hyphens=False)


def said(sentence, line, indent=""):
    """The line of a function, with a sentence behind it or, if it is too long for that, before it."""
    beside = f"{indent}{line} // {sentence}"
    if len(beside) <= WIDTH:
        return [beside if sentence else indent + line]
    return filled(sentence, indent + "/// ") + [indent + line]


def implementing(lines, kinds):
    """A type, with what it implements behind it or, if that is too long, below it."""
    text = " // " + ", ".join(kinds)
    if not kinds:
        return lines
    if len(lines[-1] + text) <= WIDTH:
        return lines[:-1] + [lines[-1] + text]
    return lines + filled(text.strip()[3:], "// ")


def signature(lines, at):
    """A function's signature in one line, without its clauses."""
    words = []
    for line in lines[at:]:
        stripped = line.strip()
        if words and re.match(r"(ensures|requires|ghost)\b", stripped):
            break
        end = re.search(r"\s*[{;]$", stripped)
        words.append(stripped[: end.start()] if end else stripped)
        if end:
            break
    text = " ".join(word for word in words if word)
    text = re.sub(r",? \)", ")", re.sub(r"\( ", "(", text))
    return re.sub(r"^pub ", "", text)


def body(lines, at, indent):
    """The numbers of the lines of a block, up to its closing brace."""
    taken = [at]
    if lines[at].rstrip().endswith((";", "}")):
        return taken
    for number in range(at + 1, len(lines)):
        taken.append(number)
        if lines[number].rstrip() == indent + "}":
            break
    return taken


def fields(lines, docs, at):
    """A struct, an enum or a trait as it stands, with its public fields or its functions alone."""
    head = lines[at].strip()
    if "const" in head.split()[:2] and not head.endswith(";"):
        # A text of several lines is left out.
        return [re.sub(r"^pub (.*?) = .*", r"\1;", head)]
    block = body(lines, at, "")
    if len(block) == 1:
        return [re.sub(r"^pub ", "", head)]
    kind, front = head.split()[1], re.sub(r"^pub ", "", head)
    if kind == "trait":
        inner = [text for at in block[1:-1] if lines[at].startswith("    fn ") for text in said(docs.get(at, ""), signature(lines, at) + ";", "    ")]
        return [front] + inner + ["}"]
    stripped = [lines[at].strip() for at in block[1:-1]]
    if kind == "enum":
        # A variant with fields of several lines is put together.
        shown = re.sub(r"\s+", " ", " ".join(line for line in stripped if not line.startswith("#"))).rstrip(",")
    else:
        public = [line.removeprefix("pub ").rstrip(",") for line in stripped if line.startswith("pub ")]
        shown = ", ".join(public + [".."] * (len(public) < len([line for line in stripped if line])))
    if len(front) + len(shown) + 3 <= WIDTH:
        return [f"{front} {shown} }}"]
    return [front] + filled(shown + ("" if shown.endswith("..") else ","), "    ") + ["}"]


def entries(crate):
    """The lines of each public item by its name, its module and its file, which they begin with where it isn't the root; by the
    crate that defines the type and its name, the blocks of its functions by their heads, and what it implements; by the same of a
    trait, the heads by which types of other libraries implement it."""
    names, pages = exported(crate)
    crates = dict.fromkeys([crate, *(source_of(path).parent.name for _, path in names)])
    defined = {name: {word for path in files(name) for word in DEFINED.findall(path.read_text())} for name in crates}
    items, blocks, implements, of_others = {}, {}, {}, {}
    for path in (path for name in reversed(crates) for path in files(name)):
        lines, docs = code_and_docs(path)
        of = source_of(path).parent.name
        head = None
        for at, line in enumerate(lines):
            start = IMPL.match(line)
            if line.startswith("impl") and start:
                head = line.removesuffix(" {").removesuffix(" {}")
                # A crate also implements its own traits, and `From` its own types, for types of others.
                owner = next(((name, start["type"]) for name in [of, *crates] if start["type"] in defined[name]), None)
                if start["of"] and not owner:
                    of_others.setdefault((of, start["of"]), []).append(head)
                    head = None
                elif start["of"]:
                    kind, head = re.sub(r"^\w+::", "", start["of"]), None
                    if kind == "Iterator":
                        kind += "<" + next(re.sub(r"^type (Item = .*);", r"\1", text.strip()) for text in lines[at:] if "type Item" in text) + ">"
                    if kind != "Model":
                        implements.setdefault(owner, []).append(kind)
            elif line.startswith("}"):
                head = None
            derive = re.match(r"#\[derive\((.*)\)\]", line)
            if derive:
                public, name = re.search(r"^(pub(?:\(crate\))? )?(?:struct|enum) (\w+)", "\n".join(lines[at:]), re.M).groups()
                if public:
                    implements.setdefault((of, name), []).extend(derive[1].split(", "))
            public = ITEM.match(line)
            if not public or public[2] in ("mod", "use"):
                continue
            name = re.search(r"(?:fn|struct|enum|trait|const) (\w+)", line)[1]
            if public[1]:
                if head:
                    functions = blocks.setdefault(owner, {}).setdefault(head, [])
                    functions += said(docs.get(at, ""), signature(lines, at) + ";", "    ")
            elif (name, path) in names or path in pages:
                module, doc = names.get((name, path), pages.get(path)), docs.get(at, "")
                if public[2].endswith("fn"):
                    items[name, module, path] = said(doc, signature(lines, at)), []
                else:
                    items[name, module, path] = filled(doc, "/// "), fields(lines, docs, at)
    return items, blocks, implements, of_others


def section(crate, shown):
    """The section of a crate, by modules, without what another one's has shown."""
    items, blocks, implements, of_others = entries(crate)
    out, in_module = ["", f"## `{crate}`", "", ABOUT[crate], "", "```rust"], ""
    for name, module, path in sorted(items, key=lambda item: (item[1], item[0].lower())):
        if (name, path) in shown:
            continue
        shown.add((name, path))
        if module != in_module:
            out += [""] * (out[-1] != "```rust") + [f"// in module {module}"]
            in_module = module
        text, declared = items[name, module, path]
        owner = (source_of(path).parent.name, name)
        if declared:
            kinds = [kind for kind in dict.fromkeys(implements.get(owner, [])) if kind]
            text = text + implementing(declared, kinds)
        inner = [line for head, functions in blocks.get(owner, {}).items() for line in [head + " {"] + functions + ["}"]]
        inner += of_others.get(owner, [])
        # A type with functions stands apart.
        if (inner or "}" in declared) and out[-1] != "```rust" and not out[-1].startswith("// in module"):
            out.append("")
        out += text + inner
    return out + ["```"]


def index(crate, shown):
    """The section of a crate by names alone: those of each module, with those of a type's functions, without what is shown."""
    items, blocks, _, _ = entries(crate)
    modules = {}
    for name, module, path in sorted(items, key=lambda item: (item[1], item[0].lower())):
        if (name, path) not in shown:
            shown.add((name, path))
            inner = [line for functions in blocks.get((source_of(path).parent.name, name), {}).values() for line in functions]
            inner += items[name, module, path][1][1:]
            functions = re.findall(r"^    (?:const )?fn (\w+)", "\n".join(inner), re.M)
            modules.setdefault(module, []).append(f"`{name}`" + (f" ({', '.join(functions)})" if functions else ""))
    listed = [f"- {f'`{module}`' if module else 'at the root'}: {', '.join(names)}" for module, names in modules.items()]
    return ["", f"## `{crate}`", "", ABOUT[crate]] + ([""] if listed else []) + listed


def page():
    out = [
        "# Public names",
        "",
        "For callers who look for a name: the library, and then the streams that it reads and writes. What `properties_c` exports to",
        "programs in C is in [C](C.md).",
        "",
        "`tools/api.py` makes this page from the sources, and `tools/api.py --check` compares it with them. With a name comes the",
        "first sentence of its doc comment, and behind a type or below it what it implements; `..` stands for private fields.",
        "Contracts are left out: they are beside the functions, and [PROMISES](PROMISES.md) explains them.",
    ]
    shown = set()
    for crate in FOR_CALLERS:
        out += section(crate, shown)
    for crate in INNER:
        out += index(crate, shown)
    return wrapped("\n".join(out) + "\n")


if __name__ == "__main__":
    target = TOP / "docs/API.md"
    text = page()
    if "--check" in sys.argv[1:]:
        if not target.exists() or target.read_text() != text:
            sys.exit("docs/API.md is not what the sources say: run tools/api.py")
        print("docs/API.md is what the sources say")
    else:
        target.write_text(text)
