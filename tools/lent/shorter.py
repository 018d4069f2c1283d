"""shorter.py: makes the text of a derivation (proofs/F/Proof/Lts.antt) shorter. lent.py runs it on what it writes; `lent.py --compact` runs it on
files that exist. A text that is short already stays as it is.

A file is read into declarations, which are rewritten and written again. What others name is kept: the records and their fields, the needs, the
invariants' types, `Claims`, `Closed`, `spec`. Only numbered names (SMALL), which nobody else uses, go, come or move.
Nothing here is trusted: the prover judges what is written.

The steps, in order (`shorten`):
  arguments that nothing uses, and what is said twice, go                     unused_arguments, once, used
  the rules of the derivation get short names; what types tell is left out    short_rules, copies, told, told_contexts
  a chain of steps is one declaration, and so is its transformer              chains
  a context is written by what it changes in an earlier one                   tables, leases
  a model takes the record that says how the code came there                  models, inline_models
  the records of a layout are written once                                    eta, layouts
  what a return owes is said once                                             owed, passed, closed_spec"""
import re

SMALL = re.compile(r"(?:[tTgGsmbyrzOΔWd]|at|lay|put|ps·|r·)\d+")        # the names that a derivation numbers
WIDTH = 190                                                              # of a line, as far as it can be broken
CHAIN = 8         # so many steps in a declaration at most: what the types of the steps tell grows with the square
DEPTH = 3         # so many changes at most stand between a context and one that is written out: more of them, and the check takes longer

# ---------------------------------------------------------------- token trees: a term is a tuple of tokens and of groups (bracket, term)
# The name of a field in `record { f = x }` is the token @f: it is no use of f

TOKEN = re.compile(r'"(?:\\.|[^"\\])*"|[(){},;]|«[^»]*»|[^\s(){},;"]+')

def tree(words_):
    """a text as a tree, with no comma or semicolon before a closing bracket"""
    stack = [("", [])]
    for t in TOKEN.findall(words_):
        if t in "({": stack.append((t, []))
        elif t in ")}":
            bracket_, inner = stack.pop()
            if inner and inner[-1] in (",", ";"): inner.pop()
            if bracket_ == "{": inner = ["@" + t if after == "=" else t for t, after in zip(inner, inner[1:] + [""])]
            stack[-1][1].append((bracket_, tuple(inner)))
        else: stack[-1][1].append(t)
    return tuple(stack[0][1])

def text(ts):
    """a tree as a text"""
    out = []
    for t in ts:
        if t in (",", ";"): out[-1] += t
        elif isinstance(t, str): out.append(t.lstrip("@"))
        elif t[0] == "(": out.append("(" + text(t[1]) + ")")
        else: out.append("{ " + text(t[1]) + " }" if out[-1:] == ["record"] and t[1] else "{" + text(t[1]) + "}")
    return " ".join(out)

def leaf(t): return isinstance(t, str)
def bracket(ts): return ts[0] if len(ts) == 1 else ("(", tuple(ts))
def inside(ts, f): return tuple(t if leaf(t) else (t[0], f(t[1])) for t in ts)

def words(ts):
    """every token of a tree"""
    for t in ts:
        if leaf(t): yield t
        else: yield from words(t[1])

def groups(ts):
    """every bracketed part of a tree"""
    for t in ts:
        if not leaf(t): yield t; yield from groups(t[1])

def rename(ts, names):
    """a tree with other tokens or groups for some tokens"""
    return tuple((t[0], rename(t[1], names)) if not leaf(t) else names.get(t, t) for t in ts)

def put(ts, names):
    """a tree with terms for some variables; a term that comes first where it stands needs no brackets"""
    out = []
    for i, t in enumerate(ts):
        if not leaf(t): out.append((t[0], put(t[1], names)))
        elif t not in names: out.append(t)
        elif i == 0 or ts[i-1] in (",", "=") or leaf(ts[i-1]) and ts[i-1][-1] == "." and ts[i-1] != ".": out += names[t]
        else: out.append(bracket(names[t]))
    return tuple(out)

def plain(ts):
    """no brackets round a single token"""
    return tuple(t[1][0] if not leaf(t) and t[0] == "(" and len(t[1]) == 1 else t for t in inside(ts, plain))

def split(ts, mark):
    """what stands between the marks"""
    out = [[]]
    for t in ts:
        if t == mark: out.append([])
        else: out[-1].append(t)
    return [tuple(x) for x in out]

def fields(ts):
    """record { a = x; b = y }  ->  {a: x, b: y}, else None"""
    if len(ts) != 2 or ts[0] != "record" or leaf(ts[1]) or ts[1][0] != "{": return None
    return {p[0][1:]: p[2:] for p in split(ts[1][1], ";") if p}

def binders(type_):
    """the named explicit arguments with which a type begins: [(name, group)]"""
    out = []
    while len(type_) > 2 and not leaf(type_[0]) and type_[0][0] == "(" and type_[1] == "→" and type_[0][1][1:2] == (":",):
        out.append((type_[0][1][0], type_[0])); type_ = type_[2:]
    return out

def uses_of(ts, names):
    """each use of a name: (name, the tokens after it)"""
    for i, t in enumerate(ts):
        if not leaf(t): yield from uses_of(t[1], names)
        elif t in names: yield t, ts[i+1:]

# ---------------------------------------------------------------- declarations

class Decl:
    kept = False           # as it is: a variable or a field has the same name
    def __init__(self, marks, name, type_, args, body): self.marks, self.name, self.type, self.args, self.body = marks, name, type_, args, body
    def lines(self): return [f"{self.marks}{self.name} : {text(self.type)}", f"{' '.join((self.name,) + self.args)} = {text(self.body)}"]
    def parts(self): return [self.type, self.body]
    def each(self, f): self.type, self.body = f(self.type), f(self.body)

class Record:
    def __init__(self, name, params, fields_): self.name, self.params, self.fields = name, params, fields_
    def lines(self): return [f"pub record {text((self.name,) + self.params)} : Type 0 where"] + [f"  pub {n} : {text(t)}" for n, t in self.fields]
    def parts(self): return [self.params] + [t for _, t in self.fields]
    def each(self, f): self.params, self.fields = f(self.params), [(n, f(t)) for n, t in self.fields]

class Section:
    name = None
    def __init__(self, params, items_): self.params, self.items = params, items_
    def parts(self): return [self.params]
    def each(self, f): self.params = f(self.params)

def is_decl(x, pattern): return isinstance(x, Decl) and not x.kept and re.fullmatch(pattern, x.name)

def everything(its):
    """the declarations, records and sections, in order"""
    for x in its:
        yield x
        if isinstance(x, Section): yield from everything(x.items)

def lists(its):
    """each list of declarations that stand side by side"""
    yield its
    for x in its:
        if isinstance(x, Section): yield from lists(x.items)

def keep_apart(its):
    """a numbered declaration stays as it is if a variable or a field of the program has its name, as a loop's `t1`"""
    taken = set()
    for x in everything(its):
        taken |= set(getattr(x, "args", ())) | {n for n, _ in getattr(x, "fields", ())}
        for part in x.parts(): taken |= set(bound(part))
    for x in everything(its):
        if isinstance(x, Decl): x.kept = x.name in taken

def bound(ts):
    """the variables that a term binds"""
    for i, t in enumerate(ts):
        if not leaf(t):
            if t[1][1:2] == (":",) and leaf(t[1][0]): yield t[1][0]
            yield from bound(t[1])
        elif t == "λ":
            k = next(k for k in range(i, len(ts)) if leaf(ts[k]) and ts[k].endswith("."))
            yield from (w.rstrip(".") for w in ts[i+1:k+1] if leaf(w))

def change(its, f):
    for x in everything(its): x.each(f)

def drop(its, gone):
    """the declarations go for which `gone` holds"""
    for block in lists(its): block[:] = [x for x in block if not gone(x)]

def counted(its):
    """how often each token stands in the declarations"""
    out = {}
    for x in everything(its):
        for part in x.parts():
            for w in words(part): out[w] = out.get(w, 0) + 1
    return out

# ---------------------------------------------------------------- reading and writing

def joined(text_):
    """the lines of a file, each with the lines that go on with it: (indentation, line)"""
    out = []
    for l in text_.split("\n"):
        if not l.strip(): continue
        i, s = len(l) - len(l.lstrip()), l.strip()
        if out and not out[-1][1].endswith(" where") and (i > out[-1][0] or s[0] in ")}]"): out[-1][1] += " " + s
        else: out.append([i, s])
    return out

def items(lines, at, ind):
    """the declarations that begin at this line and stand no less far in than `ind`, and the line after them"""
    out = []
    while at < len(lines) and lines[at][0] >= ind:
        i, l = lines[at]; ts = tree(l); at += 1
        if ts[0] == "module":
            inner, at = items(lines, at, i + 1); out.append(Section(ts[2:-1], inner))
        elif ts[:2] == ("pub", "record"):
            fields_ = []
            while at < len(lines) and lines[at][0] > i:
                f = tree(lines[at][1]); fields_.append((f[1], f[3:])); at += 1
            out.append(Record(ts[2], ts[3:len(ts) - 1 - ts[::-1].index(":")], fields_))
        else:
            k = ts.index(":"); b = tree(lines[at][1]); at += 1; e = b.index("=")
            if b[0] != ts[k-1]: raise ValueError(f"not a declaration: {l[:80]}")
            out.append(Decl("".join(m + " " for m in ts[:k-1]), ts[k-1], ts[k+1:], b[1:e], b[e+1:]))
    return out, at

def written(its, ind=0):
    """the lines of the declarations"""
    out = []
    for x in its:
        if isinstance(x, Section):
            out += fold(f"module {text(('_',) + x.params)}", ind); out[-1] += " where"; out += written(x.items, ind + 2)
        else:
            for l in x.lines(): out += fold(l.lstrip(), ind + len(l) - len(l.lstrip()))
            out.append("")
    return out

def fold(line, ind):
    """a long line as several: broken nowhere inside a tuple or a record, which the formatter would lay out part by part"""
    out, begin, last, pre = [], 0, 0, ind
    for k in spaces(line) + [len(line)] if ind + len(line) > WIDTH else []:
        if pre + k - begin > WIDTH and last > begin: out.append(" " * pre + line[begin:last]); begin, pre = last + 1, ind + 4
        last = k
    return out + [" " * pre + line[begin:]]

def spaces(line):
    """the spaces of a line that have only plain brackets round them: no tuple, no record"""
    found, stack, quoted = [[]], [True], False
    for i, c in enumerate(line):
        if c == '"': quoted = not quoted
        elif quoted: pass
        elif c in "({": found.append([]); stack.append(c == "(")
        elif c in ")}":
            inner = found.pop()
            if stack.pop(): found[-1] += inner
        elif c in ",;": stack[-1] = False
        elif c == " ": found[-1].append(i)
    return found[0]

def aliases(head):
    """the name by which a file calls each module that it uses"""
    return {m[1]: m[2] or m[1].split(".")[-1] for l in head for m in [re.fullmatch(r"use (\S+?)(?: as (\S+))?", l)] if m}

def still_used(head, body):
    """the `use` lines whose names the text has"""
    named = set(re.findall(r"[^\s(){},;\"]+", body)); first = {w.split(".")[0] for w in named}
    return [l for l in head if not l.startswith("use ") or "{" in l or aliases([l]).popitem()[1] in first]

# ---------------------------------------------------------------- sections and arguments

def flat(its):
    """no section without parameters, and none round a single declaration: its parameters are the declaration's"""
    out = []
    for x in its:
        if isinstance(x, Section):
            x.items = flat(x.items)
            if not x.params: out += x.items; continue
            if len(x.items) == 1 and all(g[0] == "(" for g in x.params): x = with_params(x.items[0], x.params)
        out.append(x)
    return out

def with_params(x, params):
    """a declaration with the parameters of its section"""
    if isinstance(x, Section): return Section(params + x.params, x.items)
    if isinstance(x, Record): return Record(x.name, params + x.params, x.fields)
    names = tuple(n for g in params for n in g[1][:g[1].index(":")])
    return Decl(x.marks, x.name, tuple(t for g in params for t in (g, "→")) + x.type, names + x.args, x.body)

def clauses(its):
    """f = λ x. t  ->  f x = t, where the type names the argument"""
    for x in everything(its):
        while isinstance(x, Decl) and x.body[0] == "λ":
            k = next(i for i, t in enumerate(x.body) if leaf(t) and t.endswith("."))
            if not all(map(leaf, x.body[1:k])) or len(binders(x.type)) < len(x.args) + k: break
            x.args += x.body[1:k] + (x.body[k][:-1],); x.body = x.body[k+1:]

def is_arg(t): return t[0] == "(" if not leaf(t) else t not in (",", ";", "=", "→", "×", "∷", "λ", ":", "record") and not t.startswith(".")

def unused_arguments(its):
    """an argument of a numbered declaration that neither its type nor its body uses goes, here and at each use"""
    gone = True
    while gone:
        least, gone = {x.name: 99 for x in everything(its) if is_decl(x, SMALL)}, {}
        for x in everything(its):
            for part in x.parts():
                for n, after in uses_of(part, least): least[n] = min(least[n], next((i for i, t in enumerate(after) if not is_arg(t)), len(after)))
        for x in everything(its):
            if gone: x.each(lambda ts: plain(without(ts, gone)))
            for at, (n, _) in enumerate(binders(x.type)[:min(len(x.args), least[x.name])] if is_decl(x, SMALL) else []):
                rest = x.type[:2*at] + x.type[2*at+2:]
                if n in words(rest) or x.args[at] in words(x.body): continue
                x.type, x.args, gone[x.name] = rest, x.args[:at] + x.args[at+1:], at; break

def without(ts, gone):
    """each use of a name without the argument at the place that `gone` says"""
    out, i = [], 0
    while i < len(ts):
        t = ts[i]; i += 1
        out.append(t if leaf(t) else (t[0], without(t[1], gone)))
        if leaf(t) and t in gone: out += without(ts[i:i+gone[t]], gone); i += gone[t] + 1
    return tuple(out)

# ---------------------------------------------------------------- what is said twice, named once, or not named

def once(its):
    """of two numbered declarations side by side that say the same, only the first"""
    names = {}
    for block in list(lists(its)):
        seen = {}
        for x in list(block):
            x.each(lambda ts: rename(ts, names))
            if not is_decl(x, SMALL) or x.name[0] == "d": continue
            same = seen.setdefault((x.type, x.args, x.body), x.name)
            if same != x.name: names[x.name] = same; block.remove(x)
    change(its, lambda ts: rename(ts, names))

def used(its):
    """numbered declarations that nothing names go"""
    while True:
        named = counted(its)
        gone = {x.name for x in everything(its) if is_decl(x, SMALL) and x.name not in named}
        if not gone: return
        drop(its, lambda x: x.name in gone)

def inlined(its, pattern):
    """a declaration without arguments that is named once is put where it is named"""
    while True:
        uses = counted(its)
        here = {x.name: bracket(x.body) for x in everything(its) if is_decl(x, pattern) and not x.args and uses.get(x.name) == 1}
        here = {n: b for n, b in here.items() if not any(w in here for w in words((b,)))}
        if not here: return
        drop(its, lambda x: x.name in here); change(its, lambda ts: rename(ts, here))

def named_groups(ts, names):
    """a tree with names for some bracketed parts, and for parts of lists and values of fields that say the same"""
    out, i, first = [], 0, {g[1][0] for g in names}
    ts = tuple(t if leaf(t) else names[t] if t in names else (t[0], named_groups(t[1], names)) for t in ts)
    while i < len(ts):
        if ts[i] in first and (i == 0 or ts[i-1] in ("=", "∷", ",")):
            end = next((k for k in range(i, len(ts)) if ts[k] in ("∷", ";", ",")), len(ts))
            if ("(", ts[i:end]) in names: out.append(names["(", ts[i:end]]); i = end; continue
        out.append(ts[i]); i += 1
    return tuple(out)

def known_types(its):
    """a type or a row that has a name, by its name"""
    names = {("(", x.body): x.name for x in its if is_decl(x, r"[yr]\d+") and len(x.body) > 1}
    for x in everything(its): x.each(lambda ts: named_groups(ts, {g: n for g, n in names.items() if n != x.name}))

def places(its, al):
    """hd d (tl (tl xs))  ->  rd d 2 xs"""
    R = al.get(MODULES["R"])
    def go(ts):
        out, i = [], 0
        while i < len(ts):
            if ts[i] == f"{R}.hd" and i + 2 < len(ts):
                n, x = 0, ts[i+2]
                while not leaf(x) and x[1][:1] == (f"{R}.tl",) and len(x[1]) == 2: n, x = n + 1, x[1][1]
                out += [f"{R}.rd", ts[i+1], str(n), x]; i += 3; continue
            out.append(ts[i] if leaf(ts[i]) else (ts[i][0], go(ts[i][1]))); i += 1
        return tuple(out)
    change(its, go)

# ---------------------------------------------------------------- the rules of a derivation, by short names

# A short name, the rule, how many arguments go (the logic's, and those that the types of the others tell), its type without them, and the rule with them.
# {T} is the module of this letter, by the name that the file has for it
MODULES = {"T": "borrow.Table.Typed", "R": "borrow.Table.Row", "W": "borrow.Table.Reads", "S": "borrow.Rule.Scalar", "L": "borrow.Rule.Lifetime", "G": "borrow.Table.Rows",
           "Y": "mir.Syntax", "N": "Prim.Native.Nat", "P": "mathlib.Core.Path", "O": "mathlib.Core.Option", "I": "mathlib.Core.List"}
GHOST, STMT, TYPED = "{T}.Ghost 𝓤 H A E", "{T}.Stmt 𝓤 H A 𝓣 E", "{T}.Typed 𝓤 H A 𝓣 E"
CODE = "{Γ Γ₁ : {R}.Cx} {a b : {Y}.Body} {Δ : {T}.Outs} "
RULES = [
  ("pre", "T.g-pre", 12, "{Γ Γ₁ : {R}.Cx} {b : {Y}.Body} {Δ : {T}.Outs} {Φ : {T}.TF Γ₁ Δ} (φ : {T}.Tf Γ Γ₁) → "
   + GHOST + " Γ Γ₁ φ → " + TYPED + " Γ₁ b Δ Φ → " + TYPED + " Γ b Δ (λ Ψ. φ (Φ Ψ))", "𝓤 H A W 𝓣 E _ _ _ _ φ _"),
  ("seq", "T.s-seq", 13, CODE + "{Φ : {T}.TF Γ₁ Δ} (φ : {T}.Tf Γ Γ₁) → "
   + STMT + " Γ a Γ₁ φ → " + TYPED + " Γ₁ b Δ Φ → " + TYPED + " Γ ({Y}.seq a b) Δ (λ Ψ. φ (Φ Ψ))", "𝓤 H A W 𝓣 E _ _ _ _ _ φ _"),
  ("then", "T.t-seq", 13, CODE + "{Φ : {T}.TF Γ ({T}.withNext ({O}.some Γ₁) Δ)} {Φ₁ : {T}.TF Γ₁ Δ} → "
   + TYPED + " Γ a ({T}.withNext ({O}.some Γ₁) Δ) Φ → " + TYPED + " Γ₁ b Δ Φ₁ → " + TYPED + " Γ ({Y}.seq a b) Δ (λ Ψ. Φ ({T}.wantNext Γ₁ Δ (Φ₁ Ψ) Ψ))", "𝓤 H A W 𝓣 E _ _ _ _ _ _ _"),
  ("post", "T.g-post", 12, "{Γ Γ₁ Γ₂ : {R}.Cx} {a : {Y}.Body} {φ : {T}.Tf Γ Γ₁} {φ′ : {T}.Tf Γ₁ Γ₂} → "
   + STMT + " Γ a Γ₁ φ → " + GHOST + " Γ₁ Γ₂ φ′ → " + STMT + " Γ a Γ₂ (λ Ψ. φ (φ′ Ψ))", "𝓤 H A W 𝓣 E _ _ _ _ _ _"),
  ("stm", "T.s-typed", 10, "{Γ : {R}.Cx} {a : {Y}.Body} {Δ : {T}.Outs} {φ : {T}.Tf Γ ({T}.the (Δ .next))} → {T}.Leaves (Δ .next) → "
   + STMT + " Γ a ({T}.the (Δ .next)) φ → " + TYPED + " Γ a Δ (λ Ψ. φ ({T}.atNext Δ Ψ))", "𝓤 H A W 𝓣 E _ _ _ _"),
  ("room", "S.g-room", 6, "{Γ : {R}.Cx} (n : {N}.ℕ) (τ : {Y}.Ty) → {W}.ToRoom 𝓤 H A ({R}.getRow n (Γ .locals) .1) τ → "
   + GHOST + " Γ ({S}.After Γ n ({G}.any-gone τ)) ({T}.pass Γ ({S}.After Γ n ({G}.any-gone τ)) ({S}.n-room Γ n τ))", "𝓤 H A W E _"),
  ("begin", "L.g-begin", 6, "{Γ : {R}.Cx} (α : {N}.ℕ) → {R}.Fresh α (Γ .locals) → " + GHOST + " Γ ({L}.Begun Γ α) ({T}.pass Γ ({L}.Begun Γ α) (λ u. u))", "𝓤 H A W E _"),
  ("end", "L.g-end", 6, "{Γ : {R}.Cx} (α : {N}.ℕ) → {P}._≡_ ({R}.getLife α (Γ .slots)) {R}.alive → " + GHOST + " Γ ({L}.Ended Γ α) ({T}.pass Γ ({L}.Ended Γ α) (λ u. u))", "𝓤 H A W E _"),
  ("forget", "L.g-forget", 6, "{Γ : {R}.Cx} (α : {N}.ℕ) (l : {R}.Life) → {P}._≡_ ({R}.getLife α (Γ .slots)) l → "
   + GHOST + " Γ ({L}.Forgot Γ α) ({T}.pass Γ ({L}.Forgot Γ α) (λ u. u))", "𝓤 H A W E _"),
  ("as-is", "W.as-is", 3, "(r : {R}.Row) → {W}.As 𝓤 H A r r (λ x. x)", "𝓤 H A"),
  ("gone", "W.room-gone", 3, "(τ : {Y}.Ty) → {W}.ToRoom 𝓤 H A ({G}.any-gone τ) τ", "𝓤 H A"),
  ("room-sc", "S.room-sc", 4, "(σ : {R}.Sc) → {W}.ToRoom 𝓤 H A ({G}.sc-here σ) ({R}.tyS σ)", "𝓤 H A W"),
  ("reads-sc", "S.reads-sc", 4, "(σ : {R}.Sc) → {W}.ReadsAs 𝓤 H A ({G}.sc-here σ) ({R}.tyS σ) ({R}.valS σ)", "𝓤 H A W"),
  ("holds-sc", "S.holds-sc", 4, "(σ : {R}.Sc) → {S}.Holds 𝓤 H A ({G}.sc-here σ) ({R}.tyS σ) ({R}.valS σ)", "𝓤 H A W"),
]
TABLE = [  # a row of the locals anew; the state of a lifetime anew; those of all
  ("on", "{N}.ℕ → {R}.Row → {R}.Cx → {R}.Cx", "n r Γ", "record { locals = {R}.setRow n (n, r) (Γ .locals); slots = Γ .slots }"),
  ("life", "{N}.ℕ → {R}.Life → {R}.Cx → {R}.Cx", "n l Γ", "record { locals = Γ .locals; slots = {R}.setLife n l (Γ .slots) }"),
  ("lives", "{I}.List {R}.Life → {R}.Cx → {R}.Cx", "ls Γ", "record { locals = Γ .locals; slots = ls }"),
]

def resolved(t, al):
    """a text of these tables in a file's own names; a module that the file does not use by its whole path"""
    return tree(re.sub(r"\{([A-Z])\}", lambda m: al.get(MODULES[m[1]], MODULES[m[1]]), t))

def derivation(its):
    """the list that holds the steps d0, d1, .., and the place of the first"""
    return next((block, k) for block in lists(its) for k, x in enumerate(block) if is_decl(x, r"d\d+"))

def short_rules(its, al):
    """the rules that a derivation uses often get short names"""
    block, at = derivation(its); made_ = []
    for name, rule, n, type_, given in RULES:
        long = f"{al.get(MODULES[rule[0]])}.{rule[2:]}"
        new = Decl("", name, resolved(type_, al), ("φ",) if "φ" in given.split() else (), tree(f"{long} {given}"))
        less = sum(len(text(p)) - len(text(by_rule(p, long, name, n))) for x in block for p in x.parts())
        if less <= sum(map(len, new.lines())) and name not in ("pre", "seq"): continue
        for x in block: x.each(lambda ts: by_rule(ts, long, name, n))
        made_.append(new)
    block[at:at] = made_

def by_rule(ts, long, name, n):
    """each use of a rule by its short name, without its first n arguments, but for the transformer of a step: told, it would be compared with
    what the whole rest of the code asks. That a lifetime is fresh, a tuple of `tt`, is told by its type"""
    out, skip = [], 0
    for i, t in enumerate(ts):
        if skip: skip -= 1
        elif t == long:
            out.append(name); skip = n
            if name in ("pre", "seq"): out.append(ts[i + n - 1])
        elif leaf(t): out.append(t)
        else: out.append("_" if name == "begin" and out[-2:-1] == ["begin"] else (t[0], by_rule(t[1], long, name, n)))
    return tuple(out)

def copies(its, al):
    """that a local which holds a whole value yields a copy of it gets a short name"""
    Y, Lo, G = al.get("borrow.Rule.Yields"), al.get("borrow.Rule.Local"), al.get(MODULES["G"], MODULES["G"])
    block, at = derivation(its)
    whole = {x.name: x.body[1] for x in its if isinstance(x, Decl) and len(x.body) == 2 and x.body[0] == f"{G}.whole"}
    long = tree(f"{Y}.yields-copy 𝓤 H A W (λ ρ. Unit) R refl C r (λ x. x) (λ x. x) (λ ρ told. {Lo}.mem-whole 𝓤 H A W R ρ) λ ρ told. {Lo}.whole-mem 𝓤 H A W R ρ")
    def go(ts):
        ts = inside(ts, go); out, i = [], 0
        while i < len(ts):
            piece = ts[i:i+len(long)]
            if ts[i] == long[0] and len(piece) == len(long):
                R, c, r = piece[6], piece[8], piece[9]
                if piece == rename(long, {"R": R, "C": c, "r": r}) and (whole.get(r) if leaf(r) else r[1][-1]) == R: out += ["copied", R, "refl", c]; i += len(long); continue
            out.append(ts[i]); i += 1
        return tuple(out)
    if sum(w == long[0] for x in block for p in x.parts() for w in words(p)) < 3: return
    for x in block: x.each(go)
    type_ = (f"(R : denote.RattleType.RattleType) → borrow.Table.OneValue.One R → denote.Laws.Copy 𝓤 H A R → "
             f"{Y}.Yields 𝓤 H A (λ ρ. Unit) (denote.Memory.lone (R .mir)) ({G}.whole R) ({G}.whole R) R (λ x. x) (λ x. x)")
    block[at:at] = [Decl("", "copied", tree(type_), ("R", "one", "c"), rename(long, {"refl": "one", "C": "c", "r": ("(", (f"{G}.whole", "R"))}))]

# ---------------------------------------------------------------- what types tell

TOLD = {"Called.given": 6, "Called.called": 6, "MutSlice.fix-len": 2, "Tests.ltb-true": 2, "Tests.ltb-false": 2, "Tests.eqb-true": 2, "Tests.eqb-false": 2,
        "Tests.not-true": 1, "Tests.not-false": 1}                      # how many of its first arguments the type of the last, or of the whole, tells

def told(ts):
    """`_` for arguments that types tell"""
    out, n = [], 0
    for t in ts:
        if n: out.append("_"); n -= 1; continue
        out.append(t if leaf(t) else (t[0], told(t[1])))
        n = TOLD.get(t, 0) if leaf(t) else 0
    return tuple(out)

def told_contexts(ts):
    """`_` for the context that a rule of a derivation takes, and for the slots that a call does: the step's type tells them"""
    out = []
    for t, after in zip(ts, ts[1:] + ("",)):
        if leaf(t): out.append("_" if re.fullmatch(r"G\d+", t) and not (leaf(after) and after.startswith(".")) else t)
        else: out.append("_" if ts[0] == "Call.sub-id" and t[1][1:] == (".slots",) else (t[0], told_contexts(t[1])))
    return tuple(out)

# ---------------------------------------------------------------- a chain of steps as one declaration

def chains(its):
    """a step before a derivation that nothing else uses, and whose transformer nothing else names, is put round it"""
    uses, size, steps = counted(its), {}, {x.name: x for x in derivation(its)[0] if is_decl(x, r"d\d+")}
    ats = {x.name: x for x in everything(its) if is_decl(x, r"at\d+")}
    gone = set()
    for x in steps.values():
        size[x.name] = 1; inner = steps.get(x.body[-1]) if leaf(x.body[-1]) else None
        if not inner or x.body[0] not in ("pre", "seq") or uses[inner.name] > 1 or size[inner.name] >= CHAIN: continue
        mine, other = (ats.get(y.type[-1]) if leaf(y.type[-1]) else None for y in (x, inner))
        if not mine or not other or uses[other.name] > 2 or other.name not in words(mine.body): continue
        x.body = x.body[:-1] + (("(", inner.body),); size[x.name] += size[inner.name]
        mine.body = with_transformer(mine.body, other.name, other.body); gone |= {inner.name, other.name}
    drop(its, lambda x: x.name in gone)

def with_transformer(ts, name, body):
    """`name Ψ` becomes what it is"""
    if ts[-2:] == (name, "Ψ"): return ts[:-2] + (body[2:] if body[:2] == ("λ", "Ψ.") else body + ("Ψ",))
    return inside(ts, lambda t: with_transformer(t, name, body))

# ---------------------------------------------------------------- contexts, each by what it changes

def listed(ts, decls):
    """the parts of a list that is written out, named, or put together of such lists; else None"""
    if len(ts) == 1 and ts[0] in decls: return listed(decls[ts[0]].body, decls)
    if len(ts) == 3 and ts[0] == "List._++_":
        a, b = (listed((t,) if leaf(t) else t[1], decls) for t in ts[1:])
        return None if a is None or b is None else a + b
    parts = split(ts, "∷")
    return tuple(parts[:-1]) if parts[-1] == ("[]",) else None

def tables(its, al):
    """each context by what it changes in an earlier one; two that are the same by one name"""
    at = next((k for k, x in enumerate(its) if is_decl(x, r"T\d+")), None)
    if at is None or any(x.name == "on" for x in its): return
    decls, known, same = {x.name: x for x in everything(its) if isinstance(x, Decl)}, {}, {}
    for x in everything(its):
        f = fields(x.body) if is_decl(x, r"[TG]\d+") else None
        if not f: continue
        rows, lives = listed(f["locals"], decls), listed(f["slots"], decls)
        if rows is None or lives is None: continue
        first = next((y for y, (r, l, _) in known.items() if (r, l) == (rows, lives)), None)
        if first: same[x.name] = first
        else: x.body, deep = shortest(x.body, rows, lives, f["slots"], known); known[x.name] = (rows, lives, deep)
    drop(its, lambda x: x.name in same); change(its, lambda ts: rename(ts, same))
    new = [Decl("abbrev ", n, resolved(t, al), tuple(a.split()), resolved(b, al)) for n, t, a, b in TABLE]
    named = counted(its); its[at:at] = [x for x in new if x.name in named]

def shortest(body, rows, lives, slots, known):
    """the shortest way to write a context, and how many changes it is away from one that is written out"""
    best, deep = None, 0
    for name, (r, l, n) in known.items():
        if len(r) != len(rows): continue
        places_ = [k for k in range(len(rows)) if rows[k] != r[k]]; n += len(places_)
        if n > DEPTH or any(rows[k][0][1][0] != str(k) for k in places_): continue
        new = (name,)
        for k in places_: new = ("on", str(k), bracket(rows[k][0][1][2:]), bracket(new))
        other = [k for k in range(len(lives)) if len(l) != len(lives) or lives[k] != l[k]]
        if len(other) == 1 and len(l) == len(lives): new = ("life", str(other[0]), bracket(lives[other[0]]), bracket(new))
        elif lives != l: new = ("lives", bracket(slots), bracket(new))
        if best is None or len(text(new)) < len(text(best)): best, deep = new, n
    return (body, 0) if best is None or len(text(best)) > sum(len(text(r)) for r in rows) else (best, deep)

def leases(its, al):
    """a lease of one of the signature's lifetimes gets a name"""
    R = al.get(MODULES["R"], MODULES["R"])
    for x in everything(its):
        if not isinstance(x, Section) or not any(g[1][0] == "qs" for g in x.params): continue
        found = {}
        for y in everything(x.items):
            for part in y.parts():
                for g in groups(part):
                    if g[1][:1] == (f"{R}.lease",): found[g] = found.get(g, 0) + 1
        names = {g: f"l{k}" for k, g in enumerate(sorted(g for g, n in found.items() if n > 2))}
        change(x.items, lambda ts: named_groups(ts, names))
        x.items[:0] = [Decl("abbrev ", n, (f"{R}.Life",), (), g[1]) for g, n in names.items()]

# ---------------------------------------------------------------- the models: each of the record that says how the code came there

def path(t, end):
    """(x .a .b .end)  ->  x .a .b, else None"""
    if leaf(t) or t[0] != "(" or t[1][-1] != end or not all(leaf(w) and w.startswith(".") for w in t[1][1:]): return None
    return t[1][:-1] or None

def stem(args, records):
    """the term of which two arguments are parts, the record that it is of, and what the second is of it; None if they are not such parts"""
    x = path(args[0], ".κs")
    if x and path(args[1], ".args") == x: return x, "Start", (".args",)
    x = path(args[0], ".before")
    if not x or leaf(args[1]): return None
    two = args[1][1]
    if two[-1] == ".given" and two[:-2] == x: return x, records.get(two[-2][1:]), two[-2:]
    if leaf(two[0]) and two[0].endswith("·gave") and two[1:] == (bracket(x),): return x, two[0][:-5], (two[0],)
    return None

def models(its):
    """a model that takes a record's `before`, and what was given then, takes the record itself and stands after it"""
    for block in lists(its):
        records = {x.name: x for x in block if isinstance(x, Record)}
        if "Start" not in records: continue
        by_field = {x.fields[1][0]: n for n, x in records.items() if len(x.fields) == 2 and x.fields[0][0] == "before"}
        alike = {}
        for x in block:
            if is_decl(x, r"[mW]\d+") and len(binders(x.type)) == len(x.args) == 2: alike.setdefault(tuple(g for _, g in binders(x.type)), []).append(x)
        goal = goals(its, {x.name: k for k, xs in alike.items() for x in xs}, by_field, records)
        new = {x.name: goal[k] for k, xs in alike.items() if k in goal for x in xs}
        for x in everything(its):
            own = x.args if x.name in new else None
            x.each(lambda ts: of_record(ts, new, own))
        for k, (record, second) in goal.items():
            given = ("•",) + second if second[0].startswith(".") else (second[0], "•")
            for x in alike[k]:
                x.body = rename(put(x.body, dict(zip(x.args, (("•", ".κs" if second == (".args",) else ".before"), given)))), {"•": "c"})
                x.type, x.args = (("(", ("c", ":", record)), "→") + x.type[4:], ("c",); block.remove(x)
            last = record if second[0].startswith(".") else second[0]
            at = next(i for i, x in enumerate(block) if x.name == last) + 1; block[at:at] = alike[k]

def goals(its, key, by_field, records):
    """for each list of arguments that models share: the record that all its uses are parts of. In a layout, where records are made, any use will do"""
    goal, bad = {}, set()
    for y in everything(its):
        for part in y.parts():
            for n, after in uses_of(part, key):
                if y.name in key and key[y.name] == key[n] and after[:2] == y.args: continue
                s = stem(after, by_field) if len(after) > 1 else None
                if s and s[1] in records:
                    if goal.setdefault(key[n], s[1:]) != s[1:]: bad.add(key[n])
                elif not is_decl(y, r"lay\d+|laid") or len(after) < 2 or not all(map(is_arg, after[:2])): bad.add(key[n])
    return {k: g for k, g in goal.items() if k not in bad and (g[0] == "Start" or records[g[0]].fields[0][0] == "before")}

def of_record(ts, new, own):
    """each use of a model that takes a record now"""
    out, i = [], 0
    while i < len(ts):
        t = ts[i]; i += 1
        if not leaf(t): out.append((t[0], of_record(t[1], new, own))); continue
        out.append(t)
        if t not in new: continue
        out.append("•" if own and ts[i:i+2] == own else as_record(ts[i], ts[i+1], *new[t])); i += 2
    return tuple(out)

def as_record(before, given, record, second):
    """the record of which these are parts, or a record made of them"""
    x = path(before, ".κs" if record == "Start" else ".before")
    if x: return bracket(x)
    if second[0].startswith("."): field, value = second[0][1:], ("record", ("{", ("@given", "=") + opened(given)))
    else: field, value = second[0][len("After-"):-len("·gave")], tree("Called.called _ _ _ _ _ _") + (given,)
    return ("(", ("record", ("{", ("@before", "=") + opened(before) + (";", "@" + field, "=") + value)))

def opened(t): return (t,) if leaf(t) else t[1]

def inline_models(its):
    """a model that is named once is put where it is named"""
    uses, ready = counted(its), {}
    for x in everything(its):
        x.each(lambda ts: with_models(ts, ready))
        if is_decl(x, r"m\d+") and len(x.args) == 1 == len(binders(x.type)) and uses.get(x.name) == 1: ready[x.name] = x
    drop(its, lambda x: x.name in ready)

def with_models(ts, ready):
    out, i = [], 0
    while i < len(ts):
        t = ts[i]; i += 1
        if not leaf(t): out.append((t[0], with_models(t[1], ready)))
        elif t in ready:
            x, arg = ready[t], ts[i]; i += 1
            body = put(x.body, {x.args[0]: with_models(opened(arg), ready)})
            out += body if not out and i == len(ts) else [("(", body)]
        else: out.append(t)
    return tuple(out)

# ---------------------------------------------------------------- the records of a layout

def eta(ts, shapes):
    """record { f = x .f; g = x .g }  ->  x, where a record has these fields"""
    out = []
    for t in ts:
        if leaf(t): out.append(t); continue
        t = (t[0], eta(t[1], shapes)); f = fields(("record", t)) if out and out[-1] == "record" else None
        stems = {p[:-1] if p[-1:] == ("." + n,) else None for n, p in f.items()} if f and tuple(f) in shapes else {None}
        if len(stems) == 1 and next(iter(stems)): out[-1] = bracket(stems.pop())
        else: out.append(t)
    return tuple(out)

def as_arguments(ts):
    """a record that is an argument, in brackets"""
    out = []
    for i, t in enumerate(ts):
        if leaf(t): out.append(t); continue
        t = (t[0], as_arguments(t[1]))
        if t[0] == "{" and out[-1:] == ["record"] and len(out) > 1 and out[-2] not in ("=", ","): out[-1] = ("(", ("record", t))
        else: out.append(t)
    return tuple(out)

def bare(ts):
    """a record that is an argument, without brackets"""
    out = []
    for t in inside(ts, bare): out += t[1] if not leaf(t) and t[0] == "(" and len(t[1]) == 2 and t[1][0] == "record" else [t]
    return tuple(out)

def layouts(its):
    """in a layout a record that is written more than once gets a name, below the λ of the last thing that it is made of"""
    records = {x.name: x for x in everything(its) if isinstance(x, Record)}
    kinds = {}
    for x in records.values():
        if len(x.fields) == 2 and x.fields[0][0] == "before":
            own = records.get(x.fields[1][1][0]); kinds.setdefault((x.fields[1][0], own and tuple(n for n, _ in own.fields)), []).append(x.name)
    kinds = {k: v[0] for k, v in kinds.items() if len(v) == 1}
    for x in everything(its):
        if is_decl(x, r"lay\d+|laid") and "let" not in words(x.body): x.body = bare(plain(lets(x.body, kinds, free_names(x.body))))

def free_names(ts):
    """c1, c2, .., but for those that a term has"""
    taken = set(words(ts))
    return (n for n in (f"c{k}" for k in range(1, 10000)) if n not in taken)

def kind_of(t, kinds):
    """the type of { before = ..; f = .. }, by f and by the fields of what f is; None if no such record is known"""
    f = fields(("record", t))
    if not f or list(f)[:1] != ["before"] or len(f) != 2: return None
    n, own = list(f.items())[1]; o = fields(own)
    return kinds.get((n, o and tuple(o)))

def lets(ts, kinds, free):
    """a term with such names: they are given from the outside in"""
    i = next((i for i, t in enumerate(ts) if t == "λ"), None)
    if i is None: return inside(ts, lambda t: lets(t, kinds, free))
    k = next(j for j in range(i, len(ts)) if leaf(ts[j]) and ts[j].endswith("."))
    end = next((j for j in range(k, len(ts)) if ts[j] in (",", ";")), len(ts))
    fresh, body, head, found = {w.rstrip(".") for w in words(ts[i+1:k+1])}, ts[k+1:end], (), {}
    for r in made(body):
        mine = lambda q: kind_of(q, kinds) and fresh & set(words(q[1]))
        if mine(r) and not any(mine(q) for q in made(r[1])): found[r] = found.get(r, 0) + 1
    for r in [r for r, n in found.items() if n > 1]:
        name = next(free)
        head += ("let", name, ":", kind_of(r, kinds), "=", "record", r, "in"); body = with_name(body, r, name)
    return inside(ts[:k+1], lambda t: lets(t, kinds, free)) + head + lets(body, kinds, free) + lets(ts[end:], kinds, free)

def made(ts):
    """the braces of every record in a tree"""
    for i, t in enumerate(ts):
        if leaf(t): continue
        if t[0] == "{" and i and ts[i-1] == "record": yield t
        yield from made(t[1])

def with_name(ts, r, name):
    out = []
    for t in ts:
        if t == r and out and out[-1] == "record": out[-1] = name
        else: out.append(t if leaf(t) else (t[0], with_name(t[1], r, name)))
    return tuple(out)

# ---------------------------------------------------------------- what a return owes, and what is passed

def same_as(pattern, ts, found):
    """whether a tree is the pattern with terms for c and u; a group that begins with one of them ends as the pattern's does"""
    if pattern and pattern[0] in ("c", "u"):
        end = pattern[1:]; x = ts[:len(ts) - len(end)]
        return bool(x) and ts[len(x):] == end and found.setdefault(pattern[0], x) == x
    return len(pattern) == len(ts) and all(p == t if leaf(p) or leaf(t) else p[0] == t[0] and same_as(p[1], t[1], found) for p, t in zip(pattern, ts))

def owed(its, al):
    """what a return owes to the caller is said once, of the start and of the model at the return"""
    there = [f["returns"] for x in everything(its) if is_decl(x, "O0") for f in [fields(x.body)] if f]
    for block in lists(its):
        w = next((x for x in block if is_decl(x, "W0") and x.args == ("c",) and len(x.body) == 1 and not leaf(x.body[0])), None)
        last = split(w.body[0][1], ",")[-1] if w else ()
        if last[:2] != ("λ", "u.") or "×" not in last or "Owed" in last or not there or len(there[0]) != 2: continue
        k = last.index("×"); claim, n = last[k+1:], 0
        for x in block:
            at = x.body.index(claim[0]) if is_decl(x, r"Need-.*") and claim[0] in x.body else None; found = {}
            if at is None or not same_as(claim, x.body[at:], found) or set(found) != {"c", "u"}: continue
            x.body = x.body[:at] + ("Owed", bracket(found["c"]), bracket(found["u"])); n += 1
        if not n: continue
        w.body = (("(", w.body[0][1][:-len(last)] + last[:k+1] + ("Owed", "c", "u")),)
        block.insert(block.index(w), Decl("abbrev ", "Owed", tree(f"(c : Start) → {al[MODULES['T']]}.Mo {there[0][1]} → Type 0"), ("c", "u"), claim))

def passed(its):
    """the values of the function's arguments are said of the start"""
    for block in lists(its):
        at = next((i for i, x in enumerate(block) if isinstance(x, Record) and x.name == "Start"), None)
        if at is None or any(x.name == "passed" for x in block): continue
        later = list(everything(block[at+1:]))
        said = [stem(after, {}) for y in later for part in y.parts() for _, after in uses_of(part, {"dens"})]
        if len(said) < 4 or None in said: continue
        for y in later: y.each(lambda ts: rename(of_record(ts, {"dens": ("Start", (".args",))}, None), {"dens": "passed"}))
        kind = next(x.type[-3:] for x in everything(its) if is_decl(x, "dens"))
        block.insert(at + 1, Decl("abbrev ", "passed", tree("(c : Start) →") + rename(kind, {"κs": ("(", ("c", ".κs"))}), ("c",), tree("dens (c .κs) (c .args)")))

def closed_spec(its):
    """`spec` is of the type `Closed`, with no section of its own"""
    for block in lists(its):
        for k, x in enumerate(block):
            if isinstance(x, Section) and [y.name for y in x.items] == ["spec"] and x.params[0] == ("{", ("M", ":", "Type", "1")):
                y = x.items[0]; args = tuple(n for g in x.params[1:] for n in g[1][:g[1].index(":")])
                block[k] = Decl(y.marks, "spec", tree("{M : Type 1} → Closed M"), args + y.args, y.body)

def variables(its):
    """short names, where they are free, for the variables of sections, which others give by place, and for the first argument of a model"""
    named = {w.split(".")[0] for w in counted(its)}
    short = {long: n for long, n in (("𝓤", "U"), ("𝓣", "C"), ("claims·", "cl")) if n not in named}
    for x in everything(its):
        mine = dict(short)
        if "c" not in {w for part in x.parts() for w in words(part)} | set(getattr(x, "args", ())):
            mine["before·"] = "c"
            if isinstance(x, Decl) and x.args[:1] == ("before",): mine["before"] = "c"
        x.each(lambda ts: rename(ts, mine))
        if isinstance(x, Decl):
            x.args = tuple(mine.get(n, n) for n in x.args)
            if SMALL.fullmatch(x.name): x.marks = x.marks.replace("pub ", "")

# ---------------------------------------------------------------- the whole

def derive_shorter(its, al):
    """the derivation itself; it is short already if it has short rules"""
    block, _ = derivation(its)
    if any(x.name == "seq" for x in block): return
    copies(its, al)
    for x in block:
        if is_decl(x, r"d\d+"): x.body = told_contexts(x.body)
    short_rules(its, al); change(its, plain); chains(its); used(its)

def shorten(t):
    """the text of an Lts.antt, as short as the steps make it: done again until nothing changes"""
    while True:
        new = shorter_by_one(t)
        if new == t: return t
        t = new

def shorter_by_one(t):
    head = [l for l in t.split("\n") if l.startswith(("use ", "--"))]
    its, _ = items([x for x in joined(t) if not x[1].startswith(("use ", "--"))], 0, 0)
    al = aliases(head); keep_apart(its)
    its = flat(its); clauses(its); unused_arguments(its); once(its); known_types(its); places(its, al); derive_shorter(its, al)
    tables(its, al); used(its); inlined(its, r"[GzbOΔ]\d+"); leases(its, al); used(its)
    shapes = {tuple(n for n, _ in x.fields) for x in everything(its) if isinstance(x, Record)}
    for x in everything(its):
        if isinstance(x, Decl): x.body = eta(told(x.body), shapes)
        if is_decl(x, r"lay\d+|laid"): x.body = as_arguments(x.body)
    models(its); layouts(its); used(its); inline_models(its); owed(its, al); passed(its); closed_spec(its); inlined(its, r"[ryT]\d+"); variables(its)
    body = "\n".join(written(its))
    return "\n".join(still_used(head, body)) + "\n\n" + body.strip("\n") + "\n"
