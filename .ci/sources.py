"""The functions of crates/*/src, and which of them each one may call, read off their text by the names alone: so more may be found than
is called, and never less but for what a trait's method or a closure calls."""
import functools
import glob
import re

from checks import text
from edit import function_at

lines = [it.partition(":") for it in text("crates.txt").decode().splitlines() if it and it[0] != "#"]
# what a crate stands on
uses = {crate.split()[0]: rest.split() for crate, _, rest in lines}
# a function's text, by its file, its type and its name
functions = {}
# in a crate of tests: what is done for a variant of an enum, by the crate and its name, and what a constant is, by the file and its name
means = {}
named, sources = {}, {}
METHOD = re.compile(r"(pub(\([^)]*\))? )?(const )?fn \w+(<.*?>)?\(\s*(&|mut |'\w+ )*self\b", re.DOTALL)


@functools.cache
def below(crate):
    """A crate, and all that it stands on."""
    return {crate}.union(*(below(it) for it in uses.get(crate, ())))


def whole(source, at):
    """What begins there, up to a comma or a closing brace outside of all brackets."""
    depth = 0
    for last in range(at, len(source)):
        depth += (source[last] in "([{") - (source[last] in ")]}")
        if depth < 0 or depth == 0 and source[last] in ",}":
            return source[at : last + 1]
    return source[at:]


def crate_of(file):
    return file.split("/")[1]


def read(file):
    crate, source = crate_of(file), re.sub(r"(?m)^\s*(//(?! at: )|ghost ).*\n", "", text(file).decode())
    sources[file] = source
    if crate.endswith("_tests"):
        for const, its in re.findall(r"(?ms)^(?:pub\(super\) )?(?:static|const) (\w+): (.*?;)$", source):
            means.setdefault((file, const), []).append(its)
        # (an arm is taken out of its function, since it is played where its variant is named)
        for arm in reversed([*re.finditer(r"\b[A-Z]\w+::(\w+)(?:\([^()]*\)| \{[^{}]*\})? => ?", source)]):
            its = whole(source, arm.end())
            means.setdefault((crate, arm[1]), []).append(its)
            source = source[: arm.start()] + source[arm.end() + len(its) :]
    for head in re.finditer(r"(?m)^( *)[a-z() ]*\bfn \w+", source):
        brace = re.compile(rf"(?m)^{head[1]}\{{| \{{$").search(source, head.start())
        found = brace and function_at(source, brace.start())
        if found:
            its = "\n".join(source.splitlines()[found[2] - 1 : found[3]])
            # (without its attributes)
            functions[file, *found[:2]] = re.sub(r"\A(\s*#\[.*\n)*\s*", "", its)
            named.setdefault(found[1], set()).add((file, *found[:2]))


def called(file, holder, code):
    """What a text of a file may call, in a function of this type."""
    crate = crate_of(file)
    for path, of, dot, name in re.findall(r"((?:\b(\w+)(?:::<[^()]*?>)?::)?)(\.?)\b([a-z]\w*)(?:::<[^()]*?>)?\(", code):
        is_own = not path and not dot and (file, "", name) in functions
        for key in [(file, "", name)] if is_own else named.get(name, ()):
            other, type_, _ = key
            near = crate_of(other) == crate or functions[key].startswith("pub fn") and crate_of(other) in (uses[crate] if dot else below(crate))
            is_method = METHOD.match(functions[key]) is not None
            if near and (type_ == (holder if of == "Self" else of) if of[:1].isupper() else is_method == bool(dot) and bool(type_) == is_method):
                yield key


@functools.cache
def calls_of(key):
    return frozenset(called(*key[:2], functions[key]))


@functools.cache
def reached(keys):
    """These functions, and all that they may call, one by another."""
    found, todo = set(), [*keys]
    while todo:
        key = todo.pop()
        if key not in found:
            found.add(key)
            todo += calls_of(key)
    return frozenset(found)


for source in sorted(glob.glob("crates/*/src/**/*.rt", recursive=True)):
    read(source)
