"""Mutants, as they stand in crates/*/{mutants,test-mutants}/*.edit: a line 'file: PATH', and then pairs of lines 'old: TEXT' and
'new: TEXT', each TEXT one line that stands once in that file. That of a test mutant begins with a line 'fails: CRATE',
'fails: CRATE FILE' (FILE.rt of its src/tests) or 'fails: .ci/PART', which says what has to fail."""
import glob
import re

FOLDERS = "mutants", "test-mutants"


def read(path):
    with open(path, encoding="utf-8") as it:
        return it.read()


def edits_of(folder, folders=FOLDERS):
    """The mutants of the crate in a folder."""
    return [Edit(path) for it in folders for path in sorted(glob.glob(f"{folder}/{it}/*.edit"))]


class Edit:
    """A wrong body: texts of files, each of which takes the place of another one."""

    def __init__(self, path):
        self.path = path
        self.crate, self.folder, file = path.split("/")[-3:]
        self.name = f"{self.crate}/{self.folder}/{file}"
        self.pairs, self.fails, file, old = [], None, None, None
        for line in read(path).splitlines():
            word, _, rest = line.partition(":")
            rest = rest[1:] if rest.startswith(" ") else rest
            if word == "fails":
                self.fails = rest.strip()
            elif word == "file":
                file = rest.strip()
            elif word == "old":
                old = rest
            elif word == "new" and file and old:
                self.pairs.append((file, old, rest))
                old = None

    def of_tests(self):
        """The crate or the part whose tests have to fail, and the file of tests, if it is one."""
        crate, _, test = (self.fails or "").partition(" ")
        return crate, test

    def apply(self, texts, folder):
        """Puts its texts in place, or answers why they cannot be."""
        if not self.pairs:
            return "it replaces nothing"
        for file, old, new in self.pairs:
            if file not in texts:
                texts[file] = read(f"{folder}/{file}")
            found = texts[file].count(old)
            if found != 1:
                return f"its text stands {found} times in {file}: {old.strip()[:80]}"
            texts[file] = texts[file].replace(old, new)
        return None

    def functions(self, folder):
        """The functions that it changes, each as its module, the type of its impl and its name, with its file and its lines. None
        where it also changes what stands outside of them."""
        found = {}
        for file, old, _ in self.pairs:
            if not file.startswith("src/"):
                return None
            text = read(f"{folder}/{file}")
            # (a later pair may apply to what an earlier one made)
            at = text.find(old)
            place = function_at(text, at + len(old) - len(old.lstrip())) if at >= 0 else None
            if place is None:
                return None
            holder, name, first, last = place
            module = [it for it in file[len("src/") : -len(".rt")].split("/") if it not in ("lib", "main", "mod")]
            found["::".join(module), holder, name] = file, first, last
        return found


def function_at(text, at):
    """The type of the impl, the name and the lines of the function in whose body a place stands."""
    heads = [it for it in re.finditer(r"(?m)^( *)(?:pub(?:\([a-z]+\))? )?(?:const )?(?:unsafe )?fn (\w+)", text) if it.start() <= at]
    if not heads:
        return None
    head, indent = heads[-1], heads[-1][1]
    # the body goes from a line '{' or one that ends so to the line '}' under the head
    end = re.compile(rf"(?m)^{indent}(\}}|\{{.*\}})$").search(text, head.start())
    brace = re.compile(rf"(?m)(^{indent}\{{| \{{$)").search(text, head.start())
    if not end or not brace or not brace.start() <= at <= end.end():
        return None
    holder = ""
    if indent:
        above = [it for it in re.finditer(r"(?m)^(?:impl|trait|pub trait|unsafe impl)\b[^{;]*", text) if it.start() < head.start()]
        if not above:
            return None
        words = re.sub(r"<[^<>]*>", "", re.sub(r"<[^<>]*>", "", re.sub(r"<[^<>]*>", "", above[-1][0])))
        named = re.findall(r"\w+", words.partition(" for ")[2] or words.replace("impl", "", 1).replace("pub", "").replace("trait", ""))
        holder = named[0] if named else ""
    first = text.count("\n", 0, head.start()) + 1
    # (a goal of the whole function stands at its first attribute)
    while first > 1 and text.splitlines()[first - 2].lstrip().startswith("#["):
        first -= 1
    return holder, head[2], first, text.count("\n", 0, end.end()) + 1
