"""Whether zfpi.h says the calls, numbers and layouts that crates/zfpi_c has: both are read as text."""

import re

RUST_TO_C = {
    "&[u8]": ["const uint8_t *", "size_t"],
    "&mut [u8]": ["uint8_t *", "size_t"],
    "&mut u64": ["uint64_t *"],
    "u32": ["uint32_t"],
    "u64": ["uint64_t"],
    "&[u64]": ["const uint64_t *", "size_t"],
    "&mut [u64]": ["uint64_t *", "size_t"],
    "&Axes": ["const zfpi_axes *"],
    "&Field": ["const zfpi_field *"],
    "&mut Info": ["zfpi_info *"],
    "Global": [],
}


def exports(text):
    """The types that each export takes, as C passes them."""
    found = {}
    for name, inside in re.findall(r'pub extern "C" fn (zfpi_\w+)\(([^)]*)\) -> u32', text):
        kinds = [part.partition(":")[2].strip() for part in inside.split(",") if ":" in part]
        found[name] = [kind for it in kinds for kind in RUST_TO_C[it]]
    return found


def declared(text):
    """The types that each call of the header file takes."""
    found = {}
    for name, inside in re.findall(r"^uint32_t (zfpi_\w+)\(([^)]*)\);", text, re.M):
        words = [] if inside.strip() == "void" else inside.split(",")
        found[name] = [re.sub(r"\w+$", "", " ".join(word.split())).strip() for word in words]
    return found


def fields(text, start, form):
    inside = text[text.index(start) :]
    return re.findall(form, inside[: inside.index("}")])


def cases(top):
    """Cases, each with whether it holds, what it is and what was seen."""
    header = (top / "capi/zfpi.h").read_text()
    source = top / "crates/zfpi_c/src"
    calls, parts, over, rest = ((source / f"{name}.rt").read_text() for name in ("calls", "parts", "over", "fields"))
    bare = re.sub(r"/\*.*?\*/", "", header, flags=re.S)
    ours, theirs = exports(calls + parts + over), declared(bare)
    theirs = {name: [kind.replace(" *", " *").rstrip() for kind in kinds] for name, kinds in theirs.items()}
    yield ours == theirs, "zfpi.h declares the exports", f"{ours} {theirs}"
    codes = dict(re.findall(r"Status::(\w+) => (\d+)", (top / "crates/zfpi_c/src/status.rt").read_text()))
    named = dict(re.findall(r"ZFPI_(\w+) = (\d+)", bare[bare.index("ZFPI_OK") - 20 :]))
    snake = {re.sub(r"(?<=[a-z])(?=[A-Z])", "_", name).upper(): code for name, code in codes.items()}
    wanted = {name: code for name, code in snake.items() if name != "DEVICE"} | {"OK": "0"}
    wanted["TYPE"] = wanted.pop("SCALAR")
    yield wanted == named, "zfpi.h numbers the statuses", f"{wanted} {named}"
    for struct, name in (("Field", "} zfpi_field;"), ("Info", "} zfpi_info;"), ("Axes", "} zfpi_axes;")):
        own = fields(rest + parts, f"pub struct {struct} {{", r"pub (\w+): (\w+)")
        there = bare[: bare.index(name)].rpartition("typedef struct {")[2]
        listed = [(word, kind) for kind, words in re.findall(r"(\w+) ([\w, ]+);", there) for word in words.split(", ")]
        own = [("type" if word == "ty" else word, {"u32": "uint32_t", "u64": "uint64_t", "Field": "zfpi_field"}[kind]) for word, kind in own]
        yield own == listed, f"zfpi.h lays out {struct}", f"{own} {listed}"
    version = re.search(r"const VERSION: u32 = ([\d_]+);", calls)[1].replace("_", "")
    yield f"#define ZFPI_VERSION {version}\n" in header, "zfpi.h has the version", version
