#!/usr/bin/env python3
"""Brings a repository's own definitions and lemmas to the spelling of today's Rattle; run once, after the kit's port.py. The names that both gave, with the crates that declare them: respell.tsv.

Renames the repository's OWN names from the older spelling (ran-one, madeFirst) to today's (ran_one, made_first; types UpperCamel).

usage: respell.py [--check] [--dashes] [--table OUT.tsv] [--drop-proof] REPO

Own names: what crates/*/specs/**/*.antt and crates/*/proofs/**/*.antt declare (lemmas, definitions, constructors, fields, rulesets, locals).
Where they turn: those .antt files (code; comments where the word has a dash or an inner capital and is one of the file's names); in src/*.rt `ghost use`
items, clauses and comments; must-fail/*.edit and tests/**/*.edit (old:/new: lines, by the names of the file that they edit); code spans of README.md, docs/*.md.
What stays: labels that Rattle makes (declared at a type `goal.x`, `tie.x`; the first name behind goal. tie. c. l. w. g.), std's names, strings, functions of src/.
A type's dash at the head stays (Search-from), as the kit's own rule has it (antt/docs/primer-language.md 4.1b).
--dashes   keeps a dash whose both sides are names of definitions that the file sees (made-append stays if made and append are such names): the kit's rule for lemmas.
--check    writes nothing.  --table writes old, new, where.
Names that fall together in a file (two own names, or an own one and an imported or a local one) are reported as 'clash:' and NOT renamed anywhere, unless
NAME=NEW is given among the arguments; but of fooBar and foo-bar the second becomes foo_bar_lem ('lem:'). Run it once more: nothing changes.
Facts spelled small (a definition into Type) are listed as 'fact:' and not renamed: the kit wants UpperCamel there; give NAME=New to rename.
"""
import collections, glob, os, re, sys

args = [a for a in sys.argv[1:]]
check = "--check" in args
dashes = "--dashes" in args
table = args[args.index("--table") + 1] if "--table" in args else None
forced = dict(a.split("=", 1) for a in args if "=" in a and not a.startswith("--"))
root = [a for a in args if not a.startswith("--") and "=" not in a and a != table][-1]
os.chdir(root)

# Lemmas that would fall together with a definition in today's spelling, with the names that they get, in the files that begin so.
APART = [
    ("crates/", "copied-back", "ran_copied_back"),
    ("crates/", "live-words", "live_words_most"),
    ("crates/", "compact-page", "compact_page_first"),
    ("crates/", "room-page", "room_page_first"),
    ("crates/", "delete-list", "delete_list_bare"),
    ("crates/demands/", "but_last", "but_last_snoc"),
    ("crates/demands/", "is-sealed", "is_sealed_true"),
    ("crates/survey/specs/Verdict", "is-sealed", "all_sealed_is"),
    ("crates/", "all-blank", "all_blank_true"),
    ("crates/", "same-words", "same_words_true"),
    ("crates/", "is-data", "is_data_true"),
    ("crates/demands/", "is_free", "is_free_true"),
    ("crates/", "entry-at", "entry_at_place"),
    ("crates/", "write-digits", "write_digits_least"),
    ("crates/", "is-write", "is_write_shaped"),
    ("crates/", "is-format", "is_format_shaped"),
    ("crates/", "eight-digits", "all_digits_eight"),
    ("crates/sessions/", "two_digits", "all_digits_two"),
    ("crates/", "four-digits", "all_digits_four"),
    ("crates/", "power-after", "carried_power"),
    ("crates/", "words-from", "words_from_fit"),
    ("crates/", "summary-on", "summary_on_is"),
    ("crates/", "is-listed", "geometry_listed"),
    ("crates/pages/", "data-words", "data_words_length"),
    ("crates/compaction/", "data-words", "data_words_length"),
    ("crates/survey/", "data-words", "data_words_length"),
    ("crates/writing/", "data-words", "data_words_length"),
    ("crates/recovery/", "data-words", "data_words_length"),
    ("crates/", "list-handles", "list_handles_reply"),
]
if not check:
    for path in sorted(glob.glob("crates/*/specs/**/*.antt", recursive=True) + glob.glob("crates/*/proofs/**/*.antt", recursive=True)):
        text = before = open(path, encoding="utf-8").read()
        for start, old, new in APART:
            if path.startswith(start):
                text = re.sub(r"(?<![\w'₀-₉.-])" + re.escape(old) + r"(?![\w'₀-₉-])|(?<=[)\w'₀-₉]\.)" + re.escape(old) + r"(?![\w'₀-₉-])", new, text)
        if text != before:
            open(path, "w", encoding="utf-8").write(text)

WORD = r'[^\s(){}.;,@"«»:]+'            # ':' stands alone in these files, but '∷' is a letter of an operator
TOK = re.compile(r'"(?:[^"\\\n]|\\.)*"|(?<![^\s(){}.;,@"«»])--[^\n]*|\{-.*?-\}|' + WORD + r'|:+|\s+|.', re.S)
OLD = re.compile(r"-|(?<=[a-z0-9₀-₉])[A-Z]")
KEY = set("use as pub mod module where let in data record open abbrev unfoldable unfolding ruleset infixr infixl infix elim λ axiom pattern mutual public unfold".split())
HEADS = {"goal", "tie", "c", "l", "w", "g", "v"}

def old_style(n):
    if not OLD.search(n) or n.startswith(("-", "◌")) or n in ("->", "--"):
        return False
    return bool(re.match(r"[^\W\d]", n))

def is_type_name(n):
    return n[0].isupper()

def new_name(n, known=()):
    if n in forced:
        return forced[n]
    if is_type_name(n):                    # UpperCamel: only a dash between small words turns; the head's dash stays
        head, _, tail = n.partition("-")
        if not tail:
            return n
        return head + "-" + small(tail, known)
    return small(n, known)

def small(n, known):
    parts = n.split("-")
    parts = [re.sub(r"(?<=[a-z0-9₀-₉])[A-Z]", lambda m: "_" + m[0].lower(), p) if not p[:1].isupper() else p for p in parts]
    out = parts[0]
    for i, p in enumerate(parts[1:], 1):
        keep = dashes and parts[i - 1] in known and p in known
        keep = keep or p[:1].isupper()     # a type in the name: all-IsWord
        out += ("-" if keep else "_") + p
    return out

class File:
    def __init__(self, path):
        self.path = path
        self.text = open(path, encoding="utf-8").read()
        self.decl, self.made, self.own_imp, self.std_imp, self.locals_ = set(), set(), {}, set(), set()

def module_of(path):
    m = re.match(r"crates/(\w+)/(specs|proofs)/(.*)\.antt$", path)
    return "Rattle." + m[1] + "." + m[2] + "." + m[3].replace("/", ".")

files = {}
for p in sorted(glob.glob("crates/*/specs/**/*.antt", recursive=True) + glob.glob("crates/*/proofs/**/*.antt", recursive=True)):
    if "/out/" not in p:
        files[p] = File(p)
crates = {p.split("/")[1] for p in files}
own_module = re.compile(r"Rattle\.(%s)\.(specs|proofs)\.(.+)" % "|".join(sorted(crates)))

USE = re.compile(r"(?m)^\s*(?:pub )?(?:ghost )?use ([^\s{};]+?)(?:\.\{([^}]*)\})?(?: as (\S+?))?;?\s*$")
def read_uses(f, text):
    for m in USE.finditer(text):
        mod, items = m[1], m[2]
        if items is None:
            continue
        own = own_module.match(mod) and ".declared." not in mod and ".contracts." not in mod
        for it in items.split(","):
            it = it.strip()
            if not it:
                continue
            name, _, alias = (x.strip() for x in it.partition(" as "))
            if own:
                f.own_imp[name] = mod
                if alias:
                    f.locals_.add(alias)
            else:
                f.std_imp.add(alias or name)
                if alias: f.std_imp.add(name)

DECL = re.compile(r"(?m)^([ \t]*)((?:pub |abbrev |unfoldable |pattern |axiom )*)(data |record |ruleset |module |open )?(" + WORD + r")((?: \{[^{}\n]*\})*)\s*(:(?!:)|(?=[({])|=|(?= ))(.*)$")
for f in files.values():
    code = re.sub(r"(?m)(?<![^\s(){}.;,@])--[^\n]*", lambda m: " " * len(m[0]), f.text)
    f.code = code
    read_uses(f, code)
    for m in re.finditer(r"(?m)^([ \t]*)((?:pub |abbrev |unfoldable |pattern |axiom )*)(data |record |ruleset )?(" + WORD + r")((?: \{[^{}\n]*\})*) ?(.?)([^\n]*)$", code):
        ind, marks, kind, name, _, nxt, rest = m.groups()
        if name in KEY:
            continue
        if kind or nxt == ":":
            typ = rest.strip()
            if re.match(r"(goal|tie)\.", typ) :
                f.made.add(name)
            elif ind:
                f.locals_.add(name)
            else:
                f.decl.add(name)
        if nxt == ":" and ind == "" and re.search(r"→ Type 0\s*$|^Type 0\s*$", rest) and name[0].islower():
            print(f"fact: {f.path}: {name}")
    # constructors and fields of data and record, and binders
    for m in re.finditer(r"[({]((?:" + WORD + r" )+):(?!:)", code):
        f.locals_.update(m[1].split())
    for m in re.finditer(r"λ ([^.]*)\.", code):
        f.locals_.update(re.findall(WORD, m[1]))
    for m in re.finditer(r"\blet (?:open )?(" + WORD + r")", code):
        f.locals_.add(m[1])
    for m in re.finditer(r"(?m)^([^\s].*?) = ", code):       # pattern variables
        f.locals_.update(w for w in re.findall(WORD, m[1]))

# ---- which spellings are own
declared_in = collections.defaultdict(set)
for f in files.values():
    for n in f.decl | (f.locals_ - f.made - f.std_imp):
        declared_in[n].add(f.path)
own_top = {n for f in files.values() for n in f.decl}
fields = set()
for f in files.values():
    for m in re.finditer(r"(?m)^[ \t]+pub (" + WORD + r") :", f.code):
        fields.add(m[1])
    # constructors
    for m in re.finditer(r"(?m)^(?:pub )?data .*? where\n((?:[ \t]+.*\n|\n)*)", f.code):
        for k in re.finditer(r"(?m)^[ \t]+(" + WORD + r") :", m[1]):
            f.decl.add(k[1])
exports = {module_of(p): f for p, f in files.items()}

def plan():
    maps, clashes, pairs = {}, collections.defaultdict(set), []
    for p, f in files.items():
        known = f.decl | set(f.own_imp) | f.std_imp
        names = (f.decl | f.locals_ | set(f.own_imp)) - f.made
        m = {}
        for n in sorted(names):
            if n in KEY or not (old_style(n) or n in forced) or (n in f.std_imp and n not in f.own_imp and n not in f.decl):
                continue
            k = known
            if n in f.own_imp:
                src = exports.get(f.own_imp[n])
                k = (src.decl | set(src.own_imp) | src.std_imp) if src else known
            t = new_name(n, k)
            if t != n:
                m[n] = t
        maps[p] = m
        taken = collections.defaultdict(set)
        for n in names | f.std_imp:
            taken[m.get(n, n)].add(n)
        for t, ns in taken.items():
            if len(ns) > 1 and any(n in m for n in ns):
                pairs.append((p, t, ns))
                for n in ns:
                    if n in m:
                        clashes[n].add(f"{p}: {' and '.join(sorted(ns))} become {t}")
    return maps, clashes, pairs

maps, clashes, pairs = plan()
# Of a definition fooBar and a lemma foo-bar (or foo_bar) that fall together the definition gets foo_bar and the lemma foo_bar_lem, as the kit has it.
for p, t, ns in pairs:
    f = files[p]
    camel = [n for n in ns if "-" not in n and old_style(n)]
    others = [n for n in ns if n not in camel and n not in f.std_imp]
    std = [n for n in ns if n in f.std_imp and n not in f.own_imp and n not in f.decl]
    if std:
        others = [n for n in ns if n not in std]
    elif not camel:
        others = [n for n in ns if "-" in n]
    for n in others:
        if n not in forced:
            forced[n] = t + "_lem"
            print(f"lem: {n} becomes {t}_lem beside {', '.join(sorted(set(ns) - {n}))} ({p})")
# the same where the two stand in different modules of one crate: no clash of scopes, but one name for two things
inner = collections.defaultdict(lambda: collections.defaultdict(set))
for p, f in files.items():
    for n in f.decl | set(re.findall(r"(?m)^[ \t]+pub (?:abbrev |unfoldable )*(" + WORD + r")(?: \{[^{}\n]*\})* :(?!:)", f.code)):
        inner[p.split("/")[1]][maps[p].get(n, n)].add(n)
for c, by in inner.items():
    for t, ns in by.items():
        camel = [n for n in ns if "-" not in n and old_style(n)]
        if len(ns) > 1 and camel:
            for n in ns:
                if n not in camel and n not in forced:
                    forced[n] = t + "_lem"
                    print(f"lem: {n} becomes {t}_lem beside {', '.join(camel)} (in crate {c})")
        elif len(ns) > 1 and not any(n in forced for n in ns):
            print(f"look: in crate {c} {' and '.join(sorted(ns))} become {t}, in different modules")
maps, clashes, pairs = plan()
field_map = {n: new_name(n) for n in fields if old_style(n) and new_name(n) != n}
bad = set(clashes)
for n in sorted(clashes):
    for why in sorted(clashes[n]):
        print("clash:", why)
for m in maps.values():
    for n in bad:
        m.pop(n, None)
for n in bad:
    field_map.pop(n, None)

def turn_antt(text, m, made, where):
    out, prev, prev2 = [], "", ""
    in_use_mod = False
    for t in TOK.finditer(text):
        s = t[0]
        if s.startswith("--") and len(s) > 2 and (not out or not out[-1] or out[-1][-1] in " \n\t(){};,") :
            out.append(re.sub(r"(?<![\w'-])[\w'₀-₉-]+(?![\w'])", lambda w: m.get(w[0], field_map.get(w[0], w[0])) if old_style(w[0]) else w[0], s))
            prev2, prev = prev, "\n"
            continue
        if re.fullmatch(WORD, s) and (old_style(s) or s in forced):
            if prev == ".":
                head = prev2
                if head in HEADS and not (s in field_map and head not in ("goal", "tie")):
                    pass                    # a label of Rattle's
                elif s in field_map and s not in made:
                    s = field_map[s]
                elif s in m and re.match(r"[A-Z]", head or ""):
                    s = m[s]                # Module.name
            elif s in m and s not in made:
                s = m[s]
            elif s in field_map and s not in made:
                s = field_map[s]
        out.append(s)
        if not s.isspace() or prev != ".":
            if s != ".":
                if prev == "." and s != ".":
                    prev2 = s
                else:
                    prev2 = s if s.strip() else ""
            prev = s if s.strip() else " "
        else:
            prev = " "
    return "".join(out)

changed = 0
count = collections.Counter()
def put(path, new, old):
    global changed
    if new != old:
        changed += 1
        if not check:
            open(path, "w", encoding="utf-8").write(new)

for p, f in files.items():
    put(p, turn_antt(f.text, maps[p], f.made, p), f.text)

# ---- sources
class Obj: pass
def rt_map(text):
    f = Obj(); f.own_imp, f.std_imp, f.locals_ = {}, set(), set()
    flat = re.sub(r"ghost use ([^;]*);", lambda m: "ghost use " + " ".join(m[1].split()) + ";", text)
    read_uses(f, flat)
    for m in re.finditer(r"ghost use (Rattle\.[\w.]+)\.([^\s{};.]+);", flat):
        if own_module.match(m[1]) and ".declared." not in m[1]:
            f.own_imp[m[2]] = m[1]
    out = {}
    for n, mod in f.own_imp.items():
        if not old_style(n) or n in bad: continue
        src = exports.get(mod)
        k = (src.decl | set(src.own_imp) | src.std_imp) if src else ()
        t = new_name(n, k)
        if t != n: out[n] = t
    for n, t in out.items():
        if re.search(r"(?<![\w.'-])" + re.escape(t) + r"\s*:(?!:)", text):
            print(f"look: a parameter, local or field {t} stands in the source where {n} becomes {t}: it hides the word in its clauses")
    return out

def turn_rt(text, m):
    if not m: return text
    pat = re.compile(r"(?<![\w'\-])(" + "|".join(sorted(map(re.escape, m), key=len, reverse=True)) + r")(?![\w'\-])")
    f = {**m}
    return pat.sub(lambda w: f[w[1]], text)

rts = {}
for p in sorted(glob.glob("crates/*/src/**/*.rt", recursive=True)):
    t = open(p, encoding="utf-8").read()
    rts[p] = rt_map(t)
    put(p, turn_rt(t, rts[p]), t)

allm = {}
for m in maps.values(): allm.update(m)
for p in sorted(glob.glob("crates/*/must-fail/*.edit") + glob.glob("tests/**/*.edit", recursive=True)):
    t = open(p, encoding="utf-8").read()
    fm = re.search(r"(?m)^file: (\S+)", t)
    crate = p.split("/")[1] if p.startswith("crates/") else p.split("/")[2] if p.count("/") > 2 else None
    m = {}
    if fm:
        for cand in (fm[1], f"crates/{crate}/{fm[1]}", f"crates/rules/{fm[1]}" if "wrong-rules" in p else ""):
            if cand in rts: m = rts[cand]
            if cand in maps: m = maps[cand]
    put(p, re.sub(r"(?m)^theorem: (\S+)$", lambda l: "theorem: " + allm.get(l[1], l[1]), turn_rt(t, m)), t)

# ---- pages: code spans alone
for p in ["README.md"] + sorted(glob.glob("docs/*.md")) + sorted(glob.glob("crates/*/README.md")):
    if not os.path.exists(p): continue
    t = open(p, encoding="utf-8").read()
    top = {n: t2 for q, m in maps.items() for n, t2 in m.items() if n in files[q].decl and old_style(n)}
    put(p, re.sub(r"`[^`\n]+`", lambda s: turn_rt(s[0], top), t), t)

# ---- what is left
left = collections.Counter()
for p, f in files.items():
    known = set(maps[p]) | f.std_imp | f.made | set(field_map) | set(maps[p].values())
    new = turn_antt(f.text, maps[p], f.made, p)
    code = re.sub(r"(?m)(?<![^\s(){}.;,@])--[^\n]*", "", new)
    for t in TOK.finditer(code):
        if old_style(t[0]) and not is_type_name(t[0]) and t[0] not in f.std_imp and t[0] not in f.made and not t[0].startswith('"') and t[0] not in bad:
            left[(t[0])] += 1
print(f"files changed: {changed}; names: {len(set(allm))}; clashes kept as they were: {len(bad)}; fields: {len(field_map)}")
print("not turned (std's, labels, or unknown):", ", ".join(f"{n} {k}" for n, k in left.most_common(60)))
if table:
    with open(table, "w") as o:
        for n in sorted(allm):
            o.write(f"{n}\t{allm[n]}\n")
