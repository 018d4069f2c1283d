#!/usr/bin/env python3
"""lent.py CRATE [FN ..]               run from the root of a Rattle repository (where crates.txt is)
lent.py --compact [CRATE [FN ..]]   makes the Lts.antt files that exist shorter (shorter.py), and derives nothing

Proves functions over a lent struct (`&[R]`, `&mut [R]`, `&R`, `&mut R`), which Rattle's borrow checker does not cover, by having it derive
a TWIN in which each lent record R is an array of integers, and writing that derivation out again for R itself. Nothing here is trusted:
what is written is proof text, and `rt check` judges it.

crates/CRATE/lent.txt says what is lent, one line each; `#` begins a comment:
  record R MODULE [BYTES]   R is lent. MODULE: its module under proofs/ (Slot). BYTES: its size in a slice (read off the MIR if left out)
  core F = BODY             F's body in the twin, where the one made by itself (a value of the result's type) will not do
  walked F ..               proved in the program logic: write only proofs/Lent/F, which callers cite, and, where Walk.antt has
                            a theorem about code of F's shape, a Proof.antt that uses it
  plain F ..                derive F though its signature is plain (found by itself where F calls a lent function)
  skip F ..                 leave F alone
  only R ..                 of the records of the crates that CRATE uses, only these are lent here (default: all of them)
Functions whose signature has a reference to a record are lent. Records and lent functions of the crates that CRATE uses come from their
lent.txt. FN: only these (default: all). Options: --list (say what would be done), --keep DIR (leave the twins there), --force
(write a starting Proof.antt.new even where there is a Proof.antt)."""
import glob, os, re, shutil, subprocess, sys, tempfile
sys.dont_write_bytecode = True
import shorter

WIDTH = 190

def die(msg): sys.exit("lent.py: " + msg)
def read(p): return open(p, encoding="utf-8").read()
def write(p, t):
    os.makedirs(os.path.dirname(p), exist_ok=True)
    open(p, "w", encoding="utf-8").write(t)

# ---------------------------------------------------------------- the source

def mask(s):
    """the source with comments, texts and characters blanked, place for place"""
    def blank(m): return re.sub(r"[^\n]", " ", m.group(0))
    return re.sub(r"//[^\n]*|/\*.*?\*/|b?\"(?:\\.|[^\"\\])*\"|b?'(?:\\.|[^\\'\n])'", blank, s, flags=re.S)

def close(s, i):
    """the place after the bracket that closes the one at i"""
    d = 0
    for j in range(i, len(s)):
        if s[j] in "([{": d += 1
        elif s[j] in ")]}":
            d -= 1
            if d == 0: return j + 1
    die("a bracket is not closed: " + s[i:i+60])

def parts(s):
    """what stands between the commas of s, at depth 0"""
    out, d, cur = [], 0, ""
    for c in s:
        if c in "([{<": d += 1
        if c in ")]}>": d -= 1
        if c == "," and d == 0: out.append(cur); cur = ""
        else: cur += c
    return [x.strip() for x in out + [cur] if x.strip()]

class Fn:
    """a function of a crate: its path, its parameters, its result, where its clauses and its body stand"""
    def __init__(f, crate, file, path, self_ty): f.crate, f.file, f.path, f.self_ty = crate, file, path, self_ty
    name = property(lambda f: "::".join(f.path))
    dir = property(lambda f: "/".join(f.path))
    mod = property(lambda f: ".".join(f.path))

class Crate:
    def __init__(c, root, name):
        c.name, c.dir = name, os.path.join(root, "crates", name)
        src = os.path.join(c.dir, "src")
        if not os.path.isdir(src): die(f"no folder crates/{name}/src")
        c.files = {}
        for d, _, fs in os.walk(src):
            for f in fs:
                if f.endswith(".rt"): c.files[os.path.relpath(os.path.join(d, f), src)] = read(os.path.join(d, f))
        c.fns, c.types = [], {}
        for f, s in c.files.items(): c.scan(f, s)
        c.records, c.cores, c.only, c.said = {}, {}, [], {"walked": [], "plain": [], "skip": []}
        p = os.path.join(c.dir, "lent.txt")
        c.has = os.path.exists(p)
        if c.has:
            for n, l in enumerate(read(p).split("\n"), 1):
                l = re.sub(r"(^|\s)#.*", "", l).strip()
                if not l: continue
                w = l.split()
                if w[0] == "record" and len(w) in (3, 4) and (len(w) == 3 or w[3].isdigit()): c.records[w[1]] = (w[2], int(w[3]) if len(w) == 4 else None)
                elif w[0] == "core" and re.match(r"core\s+[\w:]+\s*=", l):
                    k, b = l[4:].split("=", 1); c.cores[k.strip()] = b.strip()
                elif w[0] == "only": c.only += w[1:]
                elif w[0] in c.said: c.said[w[0]] += w[1:]
                else: die(f"crates/{name}/lent.txt:{n}: not understood: {l}\n  known: record R MODULE [BYTES] | core F = BODY | walked F .. | plain F .. | skip F .. | only R ..")
            known = {f.name for f in c.fns}
            for k in list(c.cores) + sum(c.said.values(), []):
                if k not in known: die(f"crates/{name}/lent.txt: there is no function {k} in crates/{name}/src")
            for r in c.records:
                if c.types.get(r, (0,))[0] != "struct": die(f"crates/{name}/lent.txt: record {r}: there is no struct {r} in crates/{name}/src")

    def scan(c, file, s):
        m = mask(s)
        base = [] if file in ("lib.rt", "main.rt") else file[:-3].split("/")
        if base[-1:] == ["mod"]: base = base[:-1]
        impls = [(x.start(), close(m, x.end() - 1), x.group(1)) for x in re.finditer(r"\bimpl\s+(\w+)\s*\{", m)]
        for x in re.finditer(r"\bstruct\s+(\w+)\s*\{", m):
            c.types[x.group(1)] = ("struct", [tuple(y.strip() for y in re.sub(r"#\[.*?\]|\bpub(\([^)]*\))?\s", "", q).split(":", 1)) for q in parts(m[x.end():close(m, x.end() - 1) - 1])])
        for x in re.finditer(r"\benum\s+(\w+)\s*\{", m): c.types[x.group(1)] = ("enum", parts(m[x.end():close(m, x.end() - 1) - 1]))
        for x in re.finditer(r"\bfn\s+(\w+)\s*(<[^>]*>)?\s*\(", m):
            own = next((t for a, b, t in impls if a < x.start() < b), None)
            f = Fn(c, file, base + ([own] if own else []) + [x.group(1)], own)
            e = close(m, x.end() - 1)
            f.params = [tuple(y.strip() for y in p.split(":", 1)) if ":" in p else (p.split()[-1].lstrip("&"), ("&mut " if "mut" in p else "&") + "Self" if "&" in p else "Self") for p in parts(m[x.end():e-1])]
            f.sig = (x.start(), e)
            r = re.compile(r"\s*->\s*((?:\[[^\]]*\]|[^\s{;]|\s(?!\s*(?:requires|ensures|ghost|where)\b)(?!\s*\{))*)").match(m, e)
            f.res = r.group(1).strip() if r else "()"
            if r: e = r.end()
            f.clauses = []
            while True:
                k = re.compile(r"\s*(requires|ensures|ghost)\b([^{]*)\{").match(m, e)
                if not k: break
                b = k.end() - 1; e = close(s, b)
                f.clauses.append((k.group(1), b, e))
            b = re.compile(r"\s*\{").match(m, e)
            if not b: continue                      # a declaration alone
            f.body = (b.end() - 1, close(m, b.end() - 1))
            f.text = m[f.body[0]:f.body[1]]
            f.loops = bool(re.search(r"\b(while|for|loop)\b", f.text))
            f.const = bool(re.search(r"\bconst\s+$", m[:x.start()]))
            c.fns.append(f)

    def calls(c, text, g):
        """does a body of this crate call g?"""
        n = re.escape(g.path[-1])
        if g.crate is not c: return re.search(rf"\b{g.crate.name}::(?:\w+::)*{n}\s*\(", text)
        return re.search(rf"(?<![\w.:]){n}\s*\(|(?:crate|self|super|Self|{'|'.join(map(re.escape, g.path[:-1])) or 'crate'})::{n}\s*\(" + (rf"|\.{n}\s*\(" if g.self_ty else ""), text)

# ---------------------------------------------------------------- what is to be done

class World:
    def __init__(w, root, name):
        w.root = root
        if not os.path.exists(os.path.join(root, "crates.txt")): die("no crates.txt here: run this from the root of the repository")
        deps = {}
        for l in read(os.path.join(root, "crates.txt")).split("\n"):
            if ":" in l and not l.startswith("#"): deps[l.split(":")[0].strip()] = l.split(":", 1)[1].split()
        if name not in deps: die(f"crates.txt has no crate {name}")
        w.deps, w.crates, todo = deps, {}, [name]
        while todo:
            n = todo.pop(0)
            if n in w.crates or n not in deps: continue       # the toolchain's own (io, libc) stay as they are
            w.crates[n] = Crate(root, n); todo += deps[n]
        w.me = w.crates[name]
        if not w.me.has and not any(c.has for c in w.crates.values()): die(f"no crates/{name}/lent.txt: write one with a line `record R MODULE` for each struct that is lent")
        w.records = []                                         # (crate, record, module, bytes)
        for c in w.crates.values():
            if w.me.only and c is not w.me: c.records = {r: x for r, x in c.records.items() if r in w.me.only}
            for r, (m, b) in c.records.items(): w.records.append(dict(crate=c, name=r, module=m, bytes=b))
        w.rec = r"(?:" + "|".join(sorted({r["name"] for r in w.records}, key=len, reverse=True)) + r")\b"
        for c in w.crates.values():
            c.lent = [f for f in c.fns if w.is_lent(f)]
        for f in w.me.lent:
            if f.self_ty in w.me.records: die(f"{f.name} is a method of the record {f.self_ty}: make it a function, since an array has no methods in the twin")
        every = [f for c in w.crates.values() for f in c.lent]
        skip, walked = w.me.said["skip"], w.me.said["walked"]
        w.plain = [f for f in w.me.fns if f not in w.me.lent and (f.name in w.me.said["plain"] or any(w.me.calls(f.text, g) for g in every))]
        w.todo = [f for f in w.me.fns if (f in w.me.lent or f in w.plain) and f.name not in skip]
        w.walked = [f for f in w.todo if f.name in walked]
        for f in w.walked:
            if f not in w.me.lent: die(f"lent.txt: walked {f.name}: its signature has no reference to a record, so its callers need nothing")

    def is_lent(w, f):
        return any(re.search(r"&\s*(?:'\w+\s+)?(?:mut\s+)?(?:\[\s*)?(?:\w+::)*" + w.rec, t) for t in [t for _, t in f.params] + [f.res])

    def sizes(w):
        """the array that stands for each record: its element's width and its length"""
        mir, used = {}, set()
        src = "\n".join(s for c in w.crates.values() for s in c.files.values())
        for r in w.records:
            c = r["crate"].name
            if c not in mir: mir[c] = subprocess.run(["rt", "mir", c], cwd=w.root, capture_output=True, text=True, env={**os.environ, "RT_CUT": "0"})
            o = mir[c]
            if o.returncode and not r["bytes"]: die(f"`rt mir {c}` failed, so the source is not right yet:\n" + first_lines(o.stdout + o.stderr))
            full = f'{c}::{r["name"]}'
            z = set(re.findall(r"\(op2 \(mul unsigned\) \S+(?: \(place [^()]*(?:\([^()]*\)[^()]*)*\))?\)* ?\(int 64 (\d+)\)\)\) \(seq \(assign \(place (\d+) lnil\) \(op2 offset (?:(?!assign).)*\(seq \(assign (?:(?!\(seq).)*?\(place \2 \(lcons \(deref \(tyNamed \(pair \"" + re.escape(full) + r"\"", o.stdout))
            z = {int(a) for a, _ in z}
            if r["bytes"] is None: r["bytes"] = min(z) if len(z) == 1 else None
            elif z and r["bytes"] not in z: die(f'lent.txt: record {r["name"]} {r["bytes"]}: the MIR has {sorted(z)} bytes')
            lent = any(re.search(r"&\s*(?:'\w+\s+)?(?:mut\s+)?\[\s*(?:\w+::)*" + r["name"] + r"\b", t) for f in r["crate"].fns for _, t in f.params)
            b = r["bytes"]
            if b is None and len(z) > 1: die(f'the size of {r["name"]} is not plain from the MIR (seen: {sorted(z)}): write it, `record {r["name"]} {r["module"]} BYTES`')
            if b is None and lent: b = 0
            cand = [("64", b // 8)] if b and b % 8 == 0 else []
            if b and b % 4 == 0: cand.append(("32", b // 4))
            if b: cand.append(("8", b))
            if b is None or b == 0: cand = [("64", n) for n in (3, 5, 7, 11, 13, 17, 19, 23)]   # never in a slice that is indexed: any array will do
            for k, n in cand:
                if (k, n) not in used and not re.search(rf"\[\s*u{k}\s*;\s*{n}\s*\]", src): break
            else: die(f'no array of {b} bytes is free to stand for {r["name"]}: an array type of the source has each candidate\'s width and length; change one of those lengths')
            used.add((k, n)); r["w"], r["n"] = k, n
        letters = "SIRBDFJNOPQUVXZ"
        for r in w.records:
            a = r["name"][0]
            if a not in letters: a = next(x for x in letters)
            letters = letters.replace(a, ""); r["alias"] = a

    def value(w, c, t, depth=0):
        """a value of the type t, as crate c writes it"""
        t = t.strip()
        if depth > 12: return None
        if t in ("()", ""): return ""
        if re.fullmatch(r"[iu](8|16|32|64|128|size)", t): return "0"
        if re.fullmatch(r"f(32|64)", t): return "0.0"
        if t == "bool": return "false"
        m = re.fullmatch(r"\[(.*);([^;\]]*)\]", t, re.S)
        if m:
            v = w.value(c, m.group(1), depth + 1)
            return v and f"[{v}; {m.group(2).strip()}]"
        if t.startswith("("):
            vs = [w.value(c, x, depth + 1) for x in parts(t[1:-1])]
            return None if None in vs else "(" + ", ".join(v or "()" for v in vs) + ")"
        m = re.fullmatch(r"(?:(\w+)::)?(?:\w+::)*(\w+)", t)
        if not m: return None
        o = w.crates.get(m.group(1), c); n = m.group(2)
        if n in o.records: return next(f'[0; {r["n"]}]' for r in w.records if r["crate"] is o and r["name"] == n)
        if n not in o.types:                                  # brought in by a `use` line
            u = next((x.group(1) for f in o.files.values() for x in re.finditer(rf"^use (\w+)::(?:\w+::)*{n};", f, re.M)), None)
            if u not in w.crates or n not in w.crates[u].types: return None
            t, o = f"{u}::{n}", w.crates[u]
        kind, body = o.types[n]
        if kind == "struct":
            vs = [(k, w.value(o, y, depth + 1)) for k, y in body]
            return None if any(v is None for _, v in vs) else f"{t} {{ " + ", ".join(f"{k}: {v or '()'}" for k, v in vs) + " }"
        for v in body:                                        # the first variant of which a value can be written
            k = re.match(r"(\w+)\s*(?:\((.*)\))?", v, re.S)
            if "{" in v: continue
            vs = [w.value(o, x, depth + 1) for x in parts(k.group(2) or "")]
            if None not in vs: return f"{t}::{k.group(1)}" + (f"({', '.join(x or '()' for x in vs)})" if vs else "")
        return None

    def stub(w, f):
        if f.name in f.crate.cores: return f.crate.cores[f.name]
        res = re.sub(r"\bSelf\b", f.self_ty or "Self", f.res)
        if res == "()": return ""
        for n, t in f.params:
            if re.sub(r"\bSelf\b", f.self_ty or "Self", t) == res: return re.sub(r"^mut ", "", n)
        v = w.value(f.crate, res)
        if v is None: die(f"no body can be made for {f.name} in the twin (its result is {f.res}): add to crates/{f.crate.name}/lent.txt a line `core {f.name} = BODY`, any value of that type, with a record as `[0; N]`")
        return v

    def twin(w, c, keep):
        """the files of crate c in the twin, with the bodies of the functions of `keep` alone"""
        out = {}
        # of a crate that is used, only what the kept bodies call
        unused = [] if c is w.me else [f for f in c.fns if not f.const and not any(w.me.calls(g.text, f) or (f.self_ty and re.search(rf"\.{f.name}\s*\(", g.text)) for g in keep)]
        for file, s in c.files.items():
            m = mask(s); cuts = []
            for f in c.fns:
                if f.file != file or f in unused: continue
                for kind, a, b in f.clauses:
                    if kind == "ghost": die(f"{c.name}::{f.name} has a ghost clause: not handled")
                    cuts.append((a, b, "{ ⌜ 0 < 1 ⌝ }" if kind == "requires" else "{ λ _. ⌜ 0 < 1 ⌝ }"))
                if f not in keep and not f.const:
                    b = w.stub(f); cuts.append((f.body[0], f.body[1], "{ " + b + " }" if b else "{ }"))
            for f in unused:
                if f.file != file: continue
                a = m.rfind("\n", 0, f.sig[0]) + 1; e = f.body[1]
                cuts = [k for k in cuts if not (a <= k[0] < e)] + [(a, e, "")]
            for r in c.records:
                for x in re.finditer(rf"(?:#\[[^\]]*\]\s*)*(?:pub(?:\([^)]*\))?\s+)?struct\s+{r}\s*\{{|\bimpl\s+{r}\s*\{{", m):
                    e = close(m, x.end() - 1); cuts = [k for k in cuts if not (x.start() <= k[0] < e)] + [(x.start(), e, "")]
            for x in re.finditer(r"\bghost\s+use\b[^;]*;", m): cuts.append((x.start(), x.end(), ""))
            for a, b, t in sorted(cuts, reverse=True): s = s[:a] + t + s[b:]
            for r in w.records:
                arr = f'[u{r["w"]}; {r["n"]}]'; n = r["name"]
                if r["crate"] is c: s = re.sub(rf"\b(?:(?:crate|self|super)::(?:\w+::)*)?{n}\b", arr, s)
                else:
                    used = rf"^use {r['crate'].name}::(?:\w+::)*{n};\n"       # by its bare name, where a `use` line brings it in
                    bare = re.search(used, s, re.M); s = re.sub(used, "", s, flags=re.M)
                    s = re.sub(rf"\b{r['crate'].name}::(?:\w+::)*{n}\b", arr, s)
                    if bare: s = re.sub(rf"(?<![\w:]){n}\b", arr, s)
            out[file] = ("" if not re.search(r"\b(?:requires|ensures)\b", s) else "ghost use Prim.Native.Nat.{_<_};\n") + s
        return out

    def stages(w, fns):
        """the callers of a function with a loop are derived in a later twin, where that function is a stub"""
        level, busy = {}, set()
        def at(f):
            if f in level: return level[f]
            if f in busy: die(f"{f.name} calls itself, directly or through others: not handled")
            busy.add(f)
            level[f] = max([at(g) + (1 if g.loops else 0) for g in fns if g is not f and w.me.calls(f.text, g)] + [0])
            return level[f]
        for f in fns: at(f)
        return [[f for f in fns if level[f] == k] for k in range(max(level.values()) + 1)] if fns else []

    def generate(w, keep, tmp, k):
        d = os.path.join(tmp, f"twin{k}"); g = os.path.join(d, "generated")
        for c in w.crates.values():
            for file, s in w.twin(c, keep).items(): write(os.path.join(d, "crates", c.name, "src", file), s)
            if os.path.exists(os.path.join(c.dir, "stdout")): write(os.path.join(d, "crates", c.name, "stdout"), "")
        write(os.path.join(d, "crates.txt"), "".join(f"{n}: {' '.join(w.deps[n])}\n" for n in reversed(list(w.crates))))
        o = subprocess.run(["rt", "dev", w.me.name, "--generated", g], cwd=d, capture_output=True, text=True)
        return g, o.stdout + o.stderr

def loop_names(d, crate):
    """the arguments that Rattle names in the invariants and measures that it asks for, function by function"""
    o = subprocess.run(["rt", "dev", crate], cwd=d, capture_output=True, text=True, env={**os.environ, "RT_CUT": "0"}); out, f = {}, None
    for l in (o.stdout + o.stderr).split("\n"):
        m = re.match(r"help: write .*/proofs/(.*)/Proof\.antt with", l)
        if m: f = m.group(1)
        m = re.match(r"    ((?:Inv|μ)-\S+) (.*) = ", l)
        if m and f: out.setdefault(f, {})[m.group(1)] = m.group(2)
    return out

def first_lines(t, n=12): return "\n".join("    " + l[:300] for l in [l for l in t.split("\n") if l.strip()][:n])

# ---------------------------------------------------------------- from the array to the record

def pat(s): return r"\s+".join(re.escape(x) for x in s.split())
def par(b): return "(" + b + ")" if " " in b else b

def rules(r):
    n, S, k = r["n"], r["alias"], f'w{r["w"]}'
    rt = "({borrow.Table.Referent}.rtF ({borrow.Table.Referent}.fInt {mir.Syntax}." + k + "))"
    e = "({borrow.Kind.Array}.eInt {mir.Syntax}." + k + ") ({borrow.Kind.Array}.eInt-laws {mir.Syntax}." + k + ")"
    return [
     (f"{{borrow.Rule.Array.Init}}.room-arr 𝓤 H A W {rt} {n} 0 {n} {{mathlib.Core.Path}}.refl", f"{S}.room 𝓤 H A W"),
     (f"{{borrow.Rule.Array.Whole}}.mem-arr 𝓤 H A W {rt} {n}", f"{S}.in-mem 𝓤 H A W"),
     (f"{{borrow.Rule.Array.Whole}}.arr-mem 𝓤 H A W {rt} {n} tt", f"{S}.of-mem 𝓤 H A W"),
     (f"{{denote.Array}}.array-lawful 𝓤 H A W {rt} ({{denote.Plain}}.uint-lawful 𝓤 H A W {{mir.Syntax}}.{k}) {n}", f"{S}.lawful 𝓤 H A W"),
     (f"{{borrow.Kind.Array}}.arr-reads 𝓤 H A W {e} {n}", f"{S}.reads 𝓤 H A W"),
     (f"{{borrow.Kind.Array}}.arr-yields 𝓤 H A W {e} {n}", f"{S}.yields 𝓤 H A W"),
     (f"{{borrow.Table.Copies}}.cArr {rt} ({{borrow.Table.Copies}}.cRf ({{borrow.Table.Referent}}.fInt {{mir.Syntax}}.{k})) {n}", f"{S}.copies"),
     (f"{{denote.Array}}.Array {rt} {n}", f"{S}.row"),
     (f"{{borrow.Rule.Array.Rows}}.arrF {rt} {n} 0", f"{S}.here"),
     (f"{{borrow.Kind.Array}}.pArr {e} {n}", f"{S}.p"),
     (f"{{borrow.Kind.Array}}.rArr {e} {n}", f"{S}.r"),
    ]

def aliases(text):
    m = {}
    for l in text.split("\n"):
        x = l.split()
        if x[:1] == ["use"] and "{" not in l: m[x[1]] = x[3] if len(x) > 2 else x[1].split(".")[-1]
    return m

def records(text, recs):
    al = aliases(text); Y = al.get("mir.Syntax", "Syntax")
    res = lambda s: re.sub(r"\{([\w.]+)\}", lambda k: al.get(k.group(1), "¬"), s)
    ref = rf"{Y}\.tyRef\s+(?:{Y}\.erased|\({Y}\.named\s+\d+\))\s+{Y}\.(?:imm|mut)"
    for r in recs:
        S = r["alias"]; arr = f'{Y}.tyArray ({Y}.tyInt {Y}.w{r["w"]}) {r["n"]}'
        text = re.sub(rf"({ref})\s+\(" + pat(arr) + r"\)", rf"\1 {S}.named", text)
        for a, b in rules(r):
            a = res(a)
            if "¬" in a: continue
            text = re.sub(r"\(" + pat(a) + r"\)", par(b), text)
            text = re.sub(pat(a) + r"(?!\d)", b, text)
        # what a rule takes for an element past the end
        text = re.sub(r"(\b" + S + r"\.here\s+\(\S+\.bySize \d+\)\s+\(λ u\. [^)]*\)\s+\(λ x\. x\)\s+)List\.\[\]", rf"\1{S}.dflt", text)
        text = re.sub(r"\(" + pat(arr) + r"\)", S + ".ty", text)
        text = re.sub(pat(arr) + r"(?!\d)", S + ".ty", text)
        text = re.sub(rf"({ref}\s+\({Y}\.tyArray\s+){S}\.ty", rf"\1{S}.named", text)
    return text

def names(text, w, done):
    me = w.me.name; R = f"Rattle·{me}·proofs.proofs"
    for c in w.crates.values():
        P = R if c is w.me else f"Rattle·{c.name}.proofs"
        for f in c.lent: text = re.sub(re.escape(f"{P}.{f.mod}.") + r"(Kinds|Reads)\b", rf"{P}.Lent.{f.mod}.\1", text)
    for f in done: text = re.sub(re.escape(f"use {R}.{f.mod}.") + r"(Lts|Tie)\b", rf"use {R}.{f.mod}.Proof.\1", text)
    return text

def uses(text, w):
    lines = text.split("\n")
    body = "\n".join(l for l in lines if not (l.startswith("use ") or l.startswith("-- the `use`")))
    keep = []
    for u in lines:
        if not u.startswith("use "): continue
        x = u.split(); n = "" if "{" in u else x[3] if len(x) > 2 else x[1].split(".")[-1]
        if u.endswith("}") or re.search(r"(?<![\w'·.-])" + re.escape(n) + r"(?![\w'-])", body): keep.append(u)
    for r in w.records:
        P = f"Rattle·{w.me.name}·proofs.proofs" if r["crate"] is w.me else f'Rattle·{r["crate"].name}.proofs'
        if re.search(r"(?<![\w'·.-])" + r["alias"] + r"\.", body): keep.append(f'use {P}.{r["module"]} as {r["alias"]}')
    return "\n".join(sorted(keep)) + "\n" + body

# ---------------------------------------------------------------- shorter text

def logical(text):
    out, cur, ind = [], None, 0
    for l in text.split("\n"):
        if not l.strip():
            if cur is not None: out.append((ind, cur)); cur = None
            out.append((0, "")); continue
        i = len(l) - len(l.lstrip()); s = l.strip()
        if cur is not None and not cur.endswith(" where") and (i > ind or s[0] in ")}]"): cur += " " + s
        else:
            if cur is not None: out.append((ind, cur))
            cur, ind = s, i
    if cur is not None: out.append((ind, cur))
    return out

def group(s, i):
    """the end of the atom or bracketed group that starts at i, with what is stuck to it"""
    if s[i] in "([{":
        d = 0; q = False
        while True:
            c = s[i]
            if c == '"': q = not q
            if not q:
                if c in "([{": d += 1
                elif c in ")]}": d -= 1
            i += 1
            if d == 0: return i
    while i < len(s) and s[i] not in " ()[]{},;": i += 1
    if s[i-5:i] == "List." and s[i:i+2] == "[]": i += 2
    return i

def top_cons(t):
    d = 0
    for c in t:
        if c in "([{": d += 1
        elif c in ")]}": d -= 1
        elif c == "∷" and d == 0: return True
    return False

def cons(s):
    """List._∷_ a b  ->  a ∷ b"""
    k = s.find("List._∷_ ")
    if k < 0: return s.replace("List.[]", "[]")
    i = k + len("List._∷_ "); e = group(s, i); a = s[i:e]
    if e >= len(s) or s[e] != " ": return s[:i] + cons(s[i:])
    f = group(s, e + 1); a, b = cons(a), cons(s[e+1:f])
    if b.startswith("(") and group(b, 0) == len(b) and top_cons(b[1:-1]): b = b[1:-1]
    if a.startswith("(") and group(a, 0) == len(a) and "," not in a and "λ" not in a and not top_cons(a[1:-1]): a = a[1:-1]
    return s[:k].replace("List.[]", "[]") + a + " ∷ " + b + cons(s[f:])

SHORT = [("any-gone", "({Y}.tyInt {Y}.w64)", "g64"), ("any-gone", "({Y}.tyInt {Y}.w32)", "g32"), ("any-gone", "({Y}.tyInt {Y}.w8)", "g8"), ("any-gone", "{Y}.tyBool", "gbool"),
  ("any-gone", "{Y}.tyPtr", "gptr"), ("any-gone", "{Y}.tyUnit", "gunit"), ("sc-here", "({B}.sInt {Y}.w64)", "h64"), ("sc-here", "({B}.sInt {Y}.w32)", "h32"),
  ("sc-here", "({B}.sInt {Y}.w8)", "h8"), ("sc-here", "{B}.sBool", "hbool"), ("sc-here", "{B}.sPtr", "hptr"), ("sc-here", "{B}.sUnit", "hunit")]

def chars(s): return "".join(chr(int(x)) for x in re.findall(r"\d+", s))

def types(s, Y, found):
    """the pair that a slice reference is, and the declared types that are held by value, by their names"""
    Z = re.escape(Y)
    s = re.sub(rf"\({Z}\.tyStruct \(38 ∷ 91 ∷ 93 ∷ \[\]\) \({Z}\.tcons ([\w.]+|\((?:[^()]|\([^()]*\))*\)) \({Z}\.tcons \({Z}\.tyInt {Z}\.w64\) {Z}\.tnil\)\)\)", r"(L.sl \1)", s)
    at = 0
    while True:
        m = re.compile(rf"{Z}\.ty(?:Struct|Enum) \(((?:\d+ ∷ )+\[\])\) ").search(s, at)
        if not m: return s
        if chars(m.group(1)).startswith("&"): at = m.end(); continue
        e = group(s, m.end()); c, n = chars(m.group(1)).split("::", 1); n = n.replace("::", ".")
        al = n.split(".")[-1] + "′"; found.add((c, n, al)); b = m.start()
        if s[b-1:b] == "(" and s[e:e+1] == ")": s = s[:b-1] + al + ".mir" + s[e+1:]
        else: s = s[:b] + al + ".mir" + s[e:]

def kinds(s, D, ED):
    """the kinds of a declared struct or enum, by value"""
    if ED:
        r = r"record \{ ty = " + re.escape(ED) + r"\.row ([\w'.]+)\.the-type; one = \S+refl; val = \S+\.val \1\.the-type ([\w'.]+)\.the-laws; tells = [^;]*; still = [^;]*; row = [^;]*; rd = λ x\. x; mk = λ x\. x;? \} λ M 𝓤 H A W\. record \{ copies = [^;]*; lawful = [^;]* tt; makes = [^;]*; in-mem = [^;]*; of-mem = [^;}]*;? \}"
        s = re.sub(r"[\w'.]*\bpVal " + r, r"L.pe \1.the-type \2.the-laws \2.the-copy \2.the-plain tt", s)
        s = re.sub(r"[\w'.]*\brVal " + r, r"L.re \1.the-type \2.the-laws \2.the-copy \2.the-plain tt", s)
    if not D: return s
    r = r"record \{ ty = " + re.escape(D) + r"\.row ([\w'.]+)\.the-type; one = \S+refl; val = \S+\.val \1\.the-type ([\w'.]+)\.the-laws; tells = [^;]*; still = [^;]*; row = [^;]*; rd = λ x\. x; mk = λ x\. x;? \} λ M 𝓤 H A W\. record \{ copies = [^;]*; lawful = [^;]*; makes = [^;]*; in-mem = [^;]*; of-mem = [^;}]*;? \}"
    s = re.sub(r"[\w'.]*\bpVal " + r, r"L.p \1.the-type \2.the-laws \2.the-copy \2.the-plain", s)
    return re.sub(r"[\w'.]*\brVal " + r, r"L.r \1.the-type \2.the-laws \2.the-copy \2.the-plain", s)

def compact(text, w, short, head_line):
    al = aliases(text); Y = al.get("mir.Syntax", "Syntax"); D = al.get("denote.Struct.Declared"); RR = al.get("borrow.Table.Rows"); B = al.get("borrow.Table.Row", "Row")
    Pt = al.get("mathlib.Core.Path"); Rf = al.get("borrow.Table.Referent"); found = set(); res = []
    for ind, l in logical(text):
        if l and not l.startswith(("use ", "--", "mod ", "pub mod ")):
            l = re.sub(r",\s*\)", ")", l); l = re.sub(r"\(\s+", "(", l); l = re.sub(r"\s+\)", ")", l)
            l = cons(l); l = kinds(l, D, al.get("denote.Enum.Declared")); l = types(l, Y, found)
            if RR:
                for a, b, n in SHORT:
                    x = f"{RR}.{a} " + b.format(Y=Y, B=B)
                    l = l.replace(f"({x})", f"L.{n}").replace(x, f"L.{n}")
            if Rf: l = re.sub(rf"\({re.escape(Rf)}\.rtF \({re.escape(Rf)}\.fInt {re.escape(Y)}\.w(64|32|8)\)\)", r"L.u\1", l)
            if Pt: l = re.sub(r"(?<![\w'·.-])" + re.escape(Pt) + r"\.refl(?![\w'-])", "refl", l)
            l = re.sub(r"(?<![\w'·.-])" + re.escape(Y) + r"\.", "Y.", l)
        res.append((ind, l))
    res = shrink(res, al)
    out = []
    for ind, l in res:
        pre = " " * ind
        while len(pre + l) > WIDTH:
            k = l.rfind(" ", 0, WIDTH - len(pre))
            if k <= 0: k = l.find(" ")
            if k <= 0: break
            out.append(pre + l[:k]); l = l[k+1:]; pre = " " * (ind + 4)
        out.append((pre + l).rstrip())
    head = [l for l in out if l.startswith("use ")]; b = re.sub(r"\n\n\n+", "\n\n", "\n".join(l for l in out if not l.startswith("use ")))
    b = re.sub(r"\n\n(?=( *)abbrev (?:pub )?(?:[tTgGbsmOryz]|at|Δ)\d+ :)", "\n", b)
    b = re.sub(r"\n\n(?= *d\d+ :)", "\n", b)
    for c, n, a in found:
        path = f"Rattle·{c}{'·proofs.proofs' if c == w.me.name else '.proofs'}.{n}.Laws"
        for h in list(head):
            x = h.split()
            if x[1] == path and (x[3:] or [None])[0] != a:
                b = re.sub(r"(?<![\w'·.-])" + re.escape(x[3] if len(x) > 2 else "Laws") + r"\.", a + ".", b); head.remove(h)
        head.append(f"use {path} as {a}")
    if re.search(r"(?<![\w'·.-])L\.", b): head.append(f"use {short} as L")
    head = [re.sub(r"^use mir\.Syntax( as \S+)?$", "use mir.Syntax as Y", h) for h in head]
    if re.search(r"(?<![\w'.])refl(?![\w'-])", b): head.append("use mathlib.Core.Path.{refl}")
    if "∷" in b or re.search(r"(?<!\.)\[\]", b): head.append("use mathlib.Core.List.{[], _∷_}")
    keep = []
    for h in sorted(set(head)):
        if "{" in h: keep.append(h); continue
        x = h.split(); n = x[3] if len(x) > 2 else x[1].split(".")[-1]
        if re.search(r"(?<![\w'·.-])" + re.escape(n) + r"(?![\w'′-])", b): keep.append(h)
    return head_line + "\n" + "\n".join(keep) + "\n" + b.strip("\n") + "\n"

def closed(t): return all(x.isdigit() or x == "tt" or "." in x[1:] for x in re.findall(r"[^\s()]+", t))

def entries(body):
    """(0, r) ∷ (1, r) ∷ []  ->  the rows; else None"""
    out, i = [], 0
    while body.startswith("(", i):
        e = group(body, i); m = re.match(r"\(\d+, (.*)\)$", body[i:e])
        if not m or not body.startswith(" ∷ ", e): return None
        out.append(m.group(1)); i = e + 3
    return out if body[i:] == "[]" else None

def heads(t, start):
    """the bracketed groups of t that begin with one of `start`"""
    for x in re.finditer(r"\((?=" + "|".join(map(re.escape, start)) + r")", t):
        e = group(t, x.start()); yield t[x.start()+1:e-1]

def name_all(text, cands, letter, ty, least=3):
    """a name for each text of `cands` that pays for itself, and its declaration"""
    n, out = {}, []
    for c in cands: n[c] = n.get(c, 0) + 1
    for c in sorted(n, key=len, reverse=True):
        if n[c] < least or (len(c) - 3) * n[c] < len(c) + 40 or not closed(c): continue
        v = f"{letter}{len(out)}"
        text = text.replace(f"({c})", v)
        text = re.sub(r"(?<=[=∷] )" + re.escape(c) + r"(?= ∷)", v, text)
        text = re.sub(r"(?<=\(\d, )" + re.escape(c) + r"(?=\))|(?<=\(\d\d, )" + re.escape(c) + r"(?=\))", v, text)
        out.append((v, c))
    return text, [f"abbrev {v} : {ty}\n{v} = {c}" for v, c in out]

def shrink(res, al):
    # a Tie names the callees' claims once
    cl = next((m.group(1) for _, l in res for m in [re.match(r"Start = Lts\.Start (\([^()]*\)) ", l)] if m), None)
    if cl:
        new, done = [], False
        for ind, l in res:
            if not done and l.startswith("abbrev pub Start"): new += [(0, "abbrev claims : Lts.Claims"), (0, f"claims = {cl}"), (0, "")]; done = True
            new.append((ind, l.replace(cl, "claims") if not l.startswith("use ") else l))
        return new
    # an Lts names the rows of its tables, the types of its references and the lists of lifetimes
    B, Li = al.get("borrow.Table.Row"), al.get("mathlib.Core.List")
    tabs = [(k, entries(m.group(2))) for k, (_, l) in enumerate(res) for m in [re.match(r"([tg]\d+) = (.*)$", l)] if m]
    if not B or not Li or not tabs: return res
    out, slots = [], {}
    for ind, l in res:
        m = re.match(r"G\d+ = record \{ locals = .*?; slots = (.*?);? \}$", l)
        if m: slots[m.group(1)] = slots.get(m.group(1), 0) + 1
    slots = {v: f"z{k}" for k, v in enumerate(v for v, n in slots.items() if n > 1 and len(v) > 30)}
    done = False
    for ind, l in res:
        if ind and not done and re.match(r"abbrev [Gg]\d+ :", l):
            for v, z in slots.items(): out += [(ind, f"abbrev {z} : {Li}.List {B}.Life"), (ind, f"{z} = {v}")]
            done = True
        m = re.match(r"(G\d+ = record \{ locals = .*?; slots = )(.*?);? \}$", l)
        out.append((ind, m.group(1) + slots[m.group(2)] + " }" if m and m.group(2) in slots else l))
    text = "\n".join(" " * i + l for i, l in out)
    rows = [r for _, es in tabs if es for r in es if not re.fullmatch(r"[\w.]+", r)]
    text, rs = name_all(text, rows, "r", f"{B}.Row", 2)
    both = text + "\n" + "\n".join(rs)
    both, ys = name_all(both, list(heads(both, ("Y.tyRef ", "L.sl ", "Y.tyArray "))), "y", "Y.Ty")
    if rs: text, rdefs = both.split("\nabbrev r0 : ", 1); rdefs = "abbrev r0 : " + rdefs
    else: text, rdefs = both.rstrip("\n"), ""
    lines = text.split("\n"); k = max(i for i, l in enumerate(lines) if l.startswith("use ")) + 1
    lines[k:k] = [x for x in ("\n".join(ys[::-1]) + "\n" + rdefs).split("\n") if x]
    return [(len(l) - len(l.lstrip()), l.lstrip()) for l in lines]

# ---------------------------------------------------------------- a first Proof.antt, and the shared files

def starter(f, w, tie, takes):
    """the needs, in the order in which tie.spec takes them"""
    R = f"Rattle·{w.me.name}·proofs.proofs"; spec = f.path[-1].replace("_", "-") + "-spec"
    sig = next((l for _, l in logical(tie) if l.startswith("pub spec :")), None)
    if sig is None: return None
    out, given, as_named = [], [], {}
    for p, t in re.findall(r"\(([^():]+) : ([^()]*)\) →", sig):
        m = re.match(r"(InvT|MeasureT|Need)-(\S+)(.*)$", t.strip().replace("tie.", ""))
        if not m: return None
        kind, n, more = m.groups()
        more = re.sub(r"[^\s()]+", lambda x: as_named.get(x.group(0), x.group(0)), more)
        if kind == "Need":
            out.append(f"{n} : tie.Need-{n}{more}\n{n} c{' κs' if re.search(r'-requires(-[0-9]+)?$', n) else ''} = search needs\n"); given.append(n)
        else:
            v = ("Inv-" if kind == "InvT" else "μ-") + n
            args = takes.get(v, "")
            out.append(f"abbrev {v} : tie.{kind}-{n}\n{v}{' ' + args if args else ''} = ?\n"); given.append(v); as_named[p.strip()] = v
    a = " ".join(given)
    call = f"tie.close (tie.spec {a})" if len(a) < 70 else "\n    tie.close\n    (tie.spec\n    " + "\n    ".join(given) + ")"
    return (f"mod Lts\nmod Tie\nuse borrow.Author.Needs.{{needs}}\nuse {R}.{f.mod}.Statement.{{statement}}\nuse {R}.{f.mod}.Proof.Tie as tie\n\n"
            + "\n".join(out) + f"\npub {spec} : {{M : Type 1}} → statement M\n{spec} ={'' if call.startswith(chr(10)) else ' '}{call}\n")

HERE = os.path.dirname(os.path.abspath(__file__))

SHAPES = [("put", r"\{\s*(\w+)\[(\w+)\]\s*=\s*\w+;\s*\}"), ("get", r"\{\s*(\w+)\[(\w+)\]\s*\}"), ("clear", r"\{\s*(\w+)\[(\w+)\]\s*=\s*(?P<core>\w+)\(\);\s*\}"),
          ("mark", r"\{\s*(\w+)\[(\w+)\]\s*=\s*(?P<core>\w+)\(\1\[\2\]\);\s*\}"), ("step", r"\{\s*\*(\w+)\s*=\s*(?P<core>\w+)\(\*\1,\s*(\w+)\);\s*\}")]

def shape(f):
    """which theorem of Walk.antt is about code of this shape, and the core that it calls"""
    for k, p in SHAPES:
        m = re.fullmatch(p, f.text)
        if m: return k, m.groupdict().get("core")
    return None

def walked_starter(f, w):
    """a Proof.antt over Walk.antt, for a contract with one `requires` and one `ensures` that says what the shape does"""
    k, core = shape(f); R = f"Rattle·{w.me.name}·proofs.proofs"; n = f.path[-1]; spec = n.replace("_", "-") + "-spec"
    rec = next((r for r in w.records for _, t in f.params[:1] if re.search(rf"\b{r['name']}\b", t)), w.records[0])
    slot = (R if rec["crate"] is w.me else f"Rattle·{rec['crate'].name}.proofs") + "." + rec["module"]
    u = ["use base.Logic.{emp, id⊢}", "use contract.Monad.{factI}", "use contract.Running.{givenOf, tables, tablesOf}", "use denote.Triple.Spec.{tripleOf}", "use denote.Triple.Table.{entered}"]
    isbool = k == "step" and f.params[1][1] == "bool"
    arg = f.params[1][1].split("::")[-1] if k == "step" and w.me.types.get(f.params[1][1].split("::")[-1], ("",))[0] == "enum" else None
    if k in ("put", "get") or arg: u = ["use mathlib.Core.Path.{refl}"] + u
    if k in ("clear", "mark"): u = ["use mathlib.Core.Path.{ap}", "use Prim.Native.Nat.{_<_}", "use lib.ListN.{length, set}"] + u
    if core: u.append("use borrow.Fn.Run.{Over}")
    u += [f"use {R}.Walk.{{{k}-meets{', a-bool' if isbool else ', an-enum' if arg else ''}}}", f"use {slot}.{{{'rec, dflt' if k in ('get', 'mark') else 'rec'}}}"]
    if arg: u += [f"use {R}.{arg} as Z", f"use {R}.{arg}.Laws as Z′"]
    if core: u += [f"use {R}.{core}.Met.{{met}}", f"use {R}.{core}.Reads as core", f"use {R}.{core}.Symbol as symbol"]
    u += [f"use {R}.{f.mod} as {n}′", f"use {R}.{f.mod}.Key.{{name as #{n}}}", f"use {R}.{f.mod}.Statement as stated", f"use {R}.{f.mod}.Code as code"]
    known = f"core.Asked core.Learnt (core.known (record {{ M = M; 𝓤 = 𝓤; H = H; 𝓜 = 𝓜; 𝓖 = 𝓖; 𝓡 = 𝓡 }}) code.env symbol.name symbol.routine code.calls-{w.me.name}·{(core or '').replace('_', '-')} (met 𝓤 H 𝓜 𝓖 𝓡))"
    head = f"({k}-meets rec 𝓤 H (𝓖 .A) (givenOf 𝓤 H 𝓜 𝓖) {'a-bool ' if isbool else '(an-enum Z.the-type Z′.the-laws Z′.the-copy Z′.the-plain tt (λ z. tt) (λ z f. refl)) ' if arg else '? ' if k == 'step' else ''}({n}′.clauses 𝓤 H (𝓖 .A) (𝓜 .mem) (𝓡 .run)) {'dflt ' if k == 'get' else ''}"
    if not core: b = [head + "(tablesOf 𝓤 H 𝓜 (tables 𝓤 H 𝓜 𝓡 code.env))", "-- what the contract asks gives that i is inside; and what it says holds", "(λ κ x g. id⊢ 𝓤 _)", "(λ κ x g l. factI 𝓤 _ (emp 𝓤) refl))"]
    elif k == "step": b = [head + "(Over 𝓤 H 𝓜 𝓖 𝓡 code.env) symbol.name", "-- what the contract asks of x .0 .now, the record, and x .1 .0, the argument (here: what the core asks); the core's contract; what it asks; and what the contract says, from what the core says of its result y",
                           "(λ x. core.Asked tt (x .0 .now, (x .1 .0, tt)))", "(λ κ x g. id⊢ 𝓤 _)" if any(c[0] == "requires" for c in f.clauses) else "(λ κ x g. factI 𝓤 _ _ tt)", known, "(λ x p. p)", "(λ κ x g p y e said. factI 𝓤 _ (emp 𝓤) said))"]
    else: b = [head + "(Over 𝓤 H 𝓜 𝓖 𝓡 code.env) symbol.name", "-- what the contract asks; that i is inside; the core's contract; what it asks; and what the contract says, from what the core says of its result y",
               "(λ x. x .1 .0 < length (x .0 .now))", "(λ κ x g. id⊢ 𝓤 _)", "(λ x l. l)", ("dflt " if k == "mark" else "") + known, "(λ x l. tt)", "(λ κ x g l y e said. factI 𝓤 _ (emp 𝓤) (ap (set (x .0 .now) (x .1 .0)) said)))"]
    return (f"-- `{w.me.name}::{f.name}` meets its contract, by the walk of `Walk.antt`{' and the contract of `' + core + '`' if core else ''}.\n" + "\n".join(u)
            + f"\n\npub {spec} : {{M : Type 1}} → stated.statement M\nunfolding code.routine tablesOf\n{spec} {'{M} ' if core else ''}𝓤 H 𝓜 𝓖 𝓡 =\n"
            + f"    entered 𝓤 H (tripleOf 𝓤 H (𝓖 .A) {n}′.signature ({n}′.spec 𝓤 H (𝓖 .A) (𝓜 .mem) (𝓡 .run))) (tables 𝓤 H 𝓜 𝓡 code.env .C) (tables 𝓤 H 𝓜 𝓡 code.env .Λ) #{n} code.function (code.unfolded 𝓤 H 𝓜 𝓡)\n"
            + "\n".join("    " + x for x in b) + "\n")

def ghost_value(w, c, t, need):
    t = t.strip()
    if re.fullmatch(r"[iu](8|16|32|64|128|size)", t): return "0"
    if t == "bool": need.add("use mathlib.Core.Bool.{false}"); return "false"
    m = re.fullmatch(r"\[(.*);([^;\]]*)\]", t, re.S)
    if m:
        v = ghost_value(w, c, m.group(1), need); need.add("use lib.ListN.{replicate}")
        return v and f"replicate {m.group(2).strip()} {par(v)}"
    if t not in c.types: return None
    kind, body = c.types[t]
    if kind == "struct":
        vs = [(k if "_" not in k else f"«{k}»", ghost_value(w, c, y, need)) for k, y in body]
        return None if any(v is None for _, v in vs) else "record { " + "; ".join(f"{k} = {v}" for k, v in vs) + " }"
    k = re.match(r"(\w+)\s*(?:\((.*)\))?", body[0], re.S); vs = [ghost_value(w, c, x, need) for x in parts(k.group(2) or "")]
    need.add(f"use Rattle·{c.name}·specs.specs.declared.{t}.the-variants.{{{k.group(1)}}}")
    return None if None in vs else " ".join([k.group(1)] + [par(v) for v in vs])

def shared(w):
    """Short.antt, and for each record of the crate its module, where there is none yet; proofs/Lib.antt names them"""
    made, proofs = [], os.path.join(w.me.dir, "proofs")
    short = f"Rattle·{w.me.name}·proofs.proofs.Short"
    if not os.path.exists(os.path.join(proofs, "Short.antt")):
        d = next((c.name for c in w.crates.values() if c is not w.me and c.has), None)
        if d: short = f"Rattle·{d}.proofs.Short"
        else: write(os.path.join(proofs, "Short.antt"), read(os.path.join(HERE, "Short.antt.txt"))); made.append("Short.antt")
    want = (["Lent"] if w.me.lent else []) + (["Short"] if os.path.exists(os.path.join(proofs, "Short.antt")) else [])
    for r, (m, _) in w.me.records.items():
        want.append(m); p = os.path.join(proofs, m + ".antt")
        if not os.path.exists(p):
            need = set(); v = ghost_value(w, w.me, r, need)
            t = read(os.path.join(HERE, "Slot.template.antt.txt")).replace("CRATE", w.me.name).replace("RECORD", r).replace("SHORT", short)
            t = t.replace("DEFAULT", v or "?").replace("-- USES\n", "".join(u + "\n" for u in sorted(need)))
            write(p, t); made.append(m + ".antt")
            if v is None: print(f"  {m}.antt: write the value `dflt` by hand (a field's type was not understood)")
    if w.walked and any(shape(f) for f in w.walked):
        want.append("Walk")
        if not os.path.exists(os.path.join(proofs, "Walk.antt")): write(os.path.join(proofs, "Walk.antt"), read(os.path.join(HERE, "Walk.antt.txt")).replace("Rattle·CRATE·proofs.proofs.Short", short)); made.append("Walk.antt")
    lib = os.path.join(proofs, "Lib.antt"); t = read(lib) if os.path.exists(lib) else ""
    miss = [x for x in want if not re.search(rf"^(pub )?mod {x}$", t, re.M)]
    if miss: write(lib, t + "".join(f"pub mod {x}\n" for x in miss)); made.append("Lib.antt (" + ", ".join(miss) + ")")
    if made: print("made, yours to edit: " + ", ".join("proofs/" + x for x in made))
    return short

def tree(proofs, fns):
    """Lent.antt and the modules on the way down"""
    kids = {}
    for f in fns:
        for i in range(len(f.path)): kids.setdefault(tuple(f.path[:i]), set()).add(f.path[i])
    for k, v in kids.items(): write(os.path.join(proofs, "/".join(("Lent",) + k) + ".antt"), "".join(f"pub mod {x}\n" for x in sorted(v)))
    for f in fns: write(os.path.join(proofs, "Lent", f.dir + ".antt"), "pub mod Kinds\npub mod Reads\n")

# ---------------------------------------------------------------- the command

def shorten_files(crate="*", fns=()):
    """the derivations of these crates and functions, or of all, made shorter where they are; a file that is short already is not written"""
    found = sorted(p for c in glob.glob(os.path.join("crates", crate, "proofs")) for p in glob.glob(os.path.join(c, "**", "Proof", "Lts.antt"), recursive=True)
                   if not fns or os.path.relpath(p, c)[:-len("/Proof/Lts.antt")].replace(os.sep, "::") in fns)
    if not found: die("no derivation of that name")
    sizes = [0, 0]
    for p in found:
        old = read(p); new = shorter.shorten(old)
        if new != old: write(p, new); print(f"{p}: {len(old.encode())} -> {len(new.encode())} bytes")
        sizes = [sizes[0] + len(old.encode()), sizes[1] + len(new.encode())]
    print(f"{len(found)} derivations, {sizes[0]} -> {sizes[1]} bytes")

def main():
    args = [a for a in sys.argv[1:] if not a.startswith("--")]; opts = [a for a in sys.argv[1:] if a.startswith("--")]
    keepdir = None
    if "--keep" in opts:
        i = sys.argv.index("--keep")
        if i + 1 >= len(sys.argv): die("--keep DIR")
        keepdir = os.path.abspath(sys.argv[i+1]); args.remove(sys.argv[i+1])
    for o in opts:
        if o not in ("--list", "--keep", "--force", "--help", "--compact"): die(f"no option {o}")
    if "--compact" in opts and "--help" not in opts: return shorten_files(*args[:1], fns=args[1:])
    if not args or "--help" in opts: sys.exit(__doc__)
    if not shutil.which("rt"): die("`rt` is not on the path")
    w = World(os.getcwd(), args[0])
    w.sizes()
    by = {f.name: f for f in w.todo}
    for a in args[1:]:
        if a not in by: die(f"{a}: " + ("its signature has no reference to a record and it calls no lent function" if a in {f.name for f in w.me.fns} else f"no such function in crates/{w.me.name}/src") + f"; known: {' '.join(sorted(by))}")
    fns = [by[a] for a in args[1:]] or w.todo
    if not fns: die("nothing is lent here")
    for r in w.records: print(f'record {r["crate"].name}::{r["name"]}: {r["bytes"] or "?"} bytes, in the twin [u{r["w"]}; {r["n"]}], {r["module"]} as {r["alias"]}')
    st = w.stages(fns)
    for k, s in enumerate(st): print(f"twin {k}: " + " ".join(f.name + (" (walked)" if f in w.walked else " (plain)" if f in w.plain else "") for f in s))
    if "--list" in opts: return
    short = shared(w); tmp = keepdir or tempfile.mkdtemp(prefix="lent-"); bad = []; proofs = os.path.join(w.me.dir, "proofs")
    try:
        for k, s in enumerate(st):
            g, log = w.generate(s, tmp, k); named = None
            for f in s:
                G = os.path.join(g, f"Rattle·{w.me.name}·proofs", "proofs", f.dir)
                if not all(os.path.exists(os.path.join(G, m + ".antt")) for m in ("Kinds", "Reads", "Lts", "Tie")) and len(s) > 1:
                    g2, log2 = w.generate([f], tmp, f"{k}-{f.path[-1]}")          # by itself, with every other function a stub
                    G, log1 = os.path.join(g2, f"Rattle·{w.me.name}·proofs", "proofs", f.dir), log2
                else: log1 = log
                mods = [m for m in ("Kinds", "Reads", "Lts", "Tie") if not (f in w.plain and m in ("Kinds", "Reads")) and not (f in w.walked and m in ("Lts", "Tie"))]
                miss = [m for m in mods if not os.path.exists(os.path.join(G, m + ".antt"))]
                if miss:
                    bad.append(f.name); print(f"{f.name}: Rattle made no {', '.join(miss)} for the twin. It said:\n" + first_lines("\n".join(l for l in log1.split("\n") if "error" in l or f"::{f.path[-1]}:" in l) or log1)); continue
                size = 0
                for m in mods:
                    dst = os.path.join(proofs, "Lent" if m in ("Kinds", "Reads") else "", f.dir, "" if m in ("Kinds", "Reads") else "Proof", m + ".antt")
                    t = read(os.path.join(G, m + ".antt"))
                    t = compact(uses(names(records(t, w.records), w, fns + w.todo), w), w, short, f"-- Machine-made by `python3 lent.py {w.me.name} {f.name}`: do not edit; make it again when the source changes.")
                    left = [r["name"] for r in w.records if re.search(rf'tyArray \(Y\.tyInt Y\.w{r["w"]}\) {r["n"]}(?!\d)|(?:Array|arrF|pArr|rArr)\b[^;]{{0,80}}w{r["w"]}\)+ {r["n"]}(?!\d)', t)]
                    if left: print(f"  note: {f.name}/{m}: the array that stands for {left[0]} is still in the text: a rule that lent.py does not know. `rt dev` will refuse it; see `rules` in lent.py")
                    if m == "Lts": t = shorter.shorten(t)
                    write(dst, t); size += len(t.encode())
                p = os.path.join(proofs, f.dir, "Proof.antt"); said = ""
                if f in w.walked:
                    for m in ("Lts", "Tie"):                     # of a time when it was derived
                        q = os.path.join(proofs, f.dir, "Proof", m + ".antt")
                        if os.path.exists(q) and read(q).startswith("-- Machine-made by"): os.remove(q)
                    if shape(f) is None: said = "  (walked by hand: Walk.antt has no theorem about code of this shape)" if not os.path.exists(p) else ""
                    elif not os.path.exists(p): write(p, walked_starter(f, w)); said = "  + a Proof.antt over Walk.antt"
                    elif "--force" in opts: write(p + ".new", walked_starter(f, w)); said = "  + Proof.antt.new"
                else:
                    if not os.path.exists(p) and f.loops and named is None: named = loop_names(os.path.join(tmp, f"twin{k}"), w.me.name)
                    t = starter(f, w, read(os.path.join(proofs, f.dir, "Proof", "Tie.antt")), (named or {}).get(f.dir, {}))
                    if t is None: said = "  (no starting Proof.antt: the Tie was not understood)"
                    elif not os.path.exists(p): write(p, t); said = "  + a starting Proof.antt"
                    elif "--force" in opts: write(p + ".new", t); said = "  + Proof.antt.new"
                print(f"{f.name}: {' '.join(mods)}, {size // 1024 + 1} KB{said}")
        tree(proofs, [f for f in w.me.lent if os.path.exists(os.path.join(proofs, "Lent", f.dir, "Kinds.antt"))])
    finally:
        if not keepdir: shutil.rmtree(tmp, ignore_errors=True)
    if bad: die("not derived: " + " ".join(bad))
    print(f"next: rt dev {w.me.name}")

main()
