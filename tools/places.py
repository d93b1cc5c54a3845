#!/usr/bin/env python3
"""places.py [FOLDER]: counts what docs/DESIGN-PASS.md speaks of, in the src/ and proofs/ of the crates of FOLDER (the one above this file, if none is named).

Each line is a kind of place with its count; with -l each place follows, as FILE:LINE: TEXT. What a pattern finds is read by hand afterwards: the page says what stands."""
import pathlib, re, sys

args = [a for a in sys.argv[1:] if a != "-l"]
LIST = "-l" in sys.argv
top = pathlib.Path(args[0]) if args else pathlib.Path(__file__).resolve().parent.parent
source = sorted(top.glob("crates/*/src/**/*.rt"))
lines = [(f.relative_to(top), n, t) for f in source for n, t in enumerate(f.read_text().splitlines(), 1)]
code = [(f, n, t) for f, n, t in lines if not t.lstrip().startswith(("//", "ghost use"))]


def show(name, found):
    print("%-68s %4d" % (name, len(found)))
    if LIST:
        for f, n, t in found:
            print("    %s:%s: %s" % (f, n, t.strip()[:120]))


def like(name, pattern, among=code):
    show(name, [x for x in among if re.search(pattern, x[2])])


def functions():
    """(file, line, name, head, body) of each function."""
    for f in source:
        text = f.read_text().splitlines()
        for n, t in enumerate(text):
            m = re.match(r"( *)(?:pub(?:\(crate\))? )?(?:extern \"C\" )?fn (\w+)", t)
            if not m:
                continue
            end = next((k for k in range(n, len(text)) if text[k] == m.group(1) + "}"), n)
            start = next((k for k in range(n, end + 1) if text[k].rstrip().endswith("{") and not re.match(r"\s*(requires|ensures)", text[k])), n)
            yield f.relative_to(top), n + 1, m.group(2), text[n:start + 1], text[start + 1:end]


KEEP = {"if", "else", "while", "for", "in", "loop", "match", "return", "let", "mut", "fn", "pub", "as", "break", "true", "false", "self"}


def shape(body):
    """A body with its names, numbers and strings taken out."""
    tokens = re.findall(r'b?"[^"]*"|\w+|[^\w\s]', "\n".join(t for t in body if not t.lstrip().startswith("//")))
    return " ".join(t if t in KEEP or not re.match(r'[\w"]', t) else "0" if t[0].isdigit() or '"' in t else "x" for t in tokens)


print("point 1")
like("  own enums", r"^(pub |pub\(crate\) )?enum ")
like("  numbers for refusals, faults and kinds", r"Answer::new\(\d|number: 2,|\.number [!=]= \d|Bad\(\d|fault_or\(|refused\(\d|kind\.?\w* (==|<=) \d|(kind|fault): u(32|64)\b|(holds: bool|same: bool|pub number)")
print("point 2")
groups = {}
for f, n, name, head, body in functions():
    s = shape(body)
    if len(s.split()) >= 12:
        groups.setdefault(s, []).append((f, n, name))
twins = [g for g in groups.values() if len(g) > 1]
show("  functions whose bodies differ in names and numbers alone", [x for g in twins for x in g])
print("point 3")
like("  loops with while or loop", r"^\s*(while\b|loop\b)")
like("  of these, loops whose test compares an index", r"^\s*while (\w+(\.\w+)* <=? \w|0 < \w|\w+ < [\w.]+\(\))")
print("point 4")
like("  comparisons, copies, order, conversions and digits by hand", r"fn (same|before|least|lesser|gives|wide|moved|keep|put_byte|is_at|digit|glyph|spell|places|letter|known_width)\b|\.\w+ == b\.\w+ &&")
print("point 5")
like("  requires that say that a pool has no fault", r"^\s*requires .*\bSane \w+\.(now|old)|^\s*requires .*\bSane l\.now")
joined = [(f, n, name, re.sub(r"\s+", " ", " ".join(head))) for f, n, name, head, body in functions()]
for what, p in (("words, root", r"words: &\[u32\], root: Prefix"), ("l, r, roots", r"l: &\[u32\], r: &\[u32\], roots: Roots"), ("both sides as words and roots", r"left: &\[u32\], left_root: Prefix"), ("both sides as words, keys and lengths", r"left: &\[u32\], left_key: u64"), ("text, from", r"text: &\[u8\], from: usize")):
    show("  functions with the parameters " + what, [(f, n, name) for f, n, name, head in joined if re.search(p, head)])
print("point 6")
like("  tables as strings of bytes", r'b"\\x')
like("  a length or a place beside a buffer", r"(words|next|used|left|right): usize,|\b(n|m|done|from|at|k|count): usize|^\s*let mut (n|at|words|count): usize = [01];")
like("  zeroed arrays made by a function", r"^\s*\[0(u\w+)?; \d+\]$")
print("point 7")
like("  matches on which list or call it is", r"match (op|call|self\.op|job\.op|operation|kind)\b|kind (==|<=) \d|kind\.value (==|<=) \d")
like("  a flag that says what a loop does", r"writes: bool")
print("point 8")
proofs = [(f.relative_to(top), n, t) for f in sorted(top.glob("crates/*/proofs/**/*.antt")) for n, t in enumerate(f.read_text().splitlines(), 1)]
like("  answers", r"^pub [\w\-]+ : goal\.", proofs)
print("%-68s %4d" % ("  lines of proof files", len(proofs)))
print("%-68s %4d" % ("  lines of source", len(lines)))
