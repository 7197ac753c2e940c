#!/usr/bin/env python3
"""Writes the walks of the functions that lend their watch records shared, below the imports of each proof file.

usage: tools/walks.py

No proof is a walk any more. The check follows the code of these functions by itself, and what it leaves are goals that `proofs/NAME/Answers.antt`
of `book_shared_records` answers in a line each, by one lemma of its Fronts.antt; those of `book_by_value` need no file. So nothing here has to be run
where a signature changes. It stays for whoever proves such a function by a walk, `proofs/NAME/Proof.antt`, by the older toolchain's logic,
in whose words the walks are written: of a function without that file it says so, and writes nothing.

A walk names what it reaches for by its place in the context, which depends on every parameter. Where a signature changes, it is changed in
CALLS below.

book_shared_records: the records are lent to `numbers`; the numbers, how many records there are and all else go to the function of the same name that takes numbers.
book_by_value: the records stand in a local array, lent for the call to the function of `book_shared_records` with the same name.
"""
import os

# The parameters of each call, in order, with their sorts: head, num (a u32), shr (a &[u32]), mut (a &mut [u32]), out (a &mut [u8]) and
# records; its promise, and the promise's arguments: {ws} for the watches, {j} for the result, {name} for what is last in a slice; what the
# law on its records is told; and the type of its result.
SHARED = [(name, "shr") for name in ("columns", "positions", "lowerEnds", "upperEnds")]
LENT = [(name, "mut") for name in ("columns", "positions", "lowerEnds", "upperEnds")]
RECORDS = [("records", "records")]
LAST = "(lent-tables {columns} {positions} {lowerEnds} {upperEnds})"
CALLS = {
    "quote": ([("head", "head"), ("quoted", "shr")] + LENT + RECORDS + [("out", "out")], "Quoted",
              "head (quoted .now) lent {ws} (out .now) {j} " + LAST + " {out}", "head (quoted .now) lent", "Reply"),
    "both": ([("head", "head"), ("quoted", "shr"), ("n", "num")] + LENT + RECORDS + [("out", "out"), ("cells", "mut")], "QuotedLooked",
             "head (quoted .now) n lent {ws} (out .now) (cells .now) {j} " + LAST + " {out} {cells}", "head (quoted .now) n lent", "BothReply"),
    "preview": ([("head", "head"), ("quoted", "shr")] + SHARED + RECORDS + [("out", "out")], "Previewed",
                "head (quoted .now) lent {ws} (out .now) {j} {out}", "head (quoted .now) lent", "Effect"),
    "pair": ([("head", "head"), ("n1", "num"), ("n2", "num")] + SHARED + RECORDS + [("out", "out")], "Paired",
             "head n1 n2 lent {ws} (out .now) {j} {out}", "head n1 n2 lent", "Reply"),
    "unpair": ([("head", "head")] + SHARED + RECORDS, "Unpaired", "head lent {ws} {j}", "head lent", "Reply"),
}
# The crate of the function of each name that takes the watches as numbers.
HOMES = {"quote": "quoting", "both": "quote_looking", "preview": "previewing", "pair": "pairing", "unpair": "pairing"}
# The machine values of a result of each type, and that what a call hands back is spelled so.
SPELLED = {"Reply": ("machines", "spelled"), "Effect": ("effect-machines", "effect-spelled"), "BothReply": ("both-machines", "both-spelled")}
MARK = "-- what is had of each parameter at the end"
ROWS = "(array-typed T.the-row (LL.lawful T.the-type T′.the-laws 𝓤 H A W .typed) 8 records _ is-records .0)"
GIVEN = "{M : Type 1} (𝓤 : URA M) (H : Heap 𝓤) (A : Atoms 𝓤)"
RUNS = "(mem : Memory → SProp 𝓤) (run : Routine → Fun 𝓤)"


def low(number):
    """A number in small digits."""
    return "".join("₀₁₂₃₄₅₆₇₈₉"[int(digit)] for digit in str(number))


def nest(items):
    """Items as nested pairs."""
    return "tt" if not items else f"({items[0]}, {nest(items[1:])})"


def product(types):
    """The type of such pairs."""
    return "Unit {0}" if not types else f"{types[0]} × " + (product(types[1:]) if len(types) == 1 else f"({product(types[1:])})")


def steps(words):
    """Steps of a walk, each behind the one before."""
    return " ".join(f"{word} $" for word in words)


def at(place, *more):
    """A step that brings what stands at these places to the front."""
    return f"move ! ({' ∷ '.join(map(str, (place, *more)))} ∷ [])"


class Walk:
    """The parts of a walk that both sorts share: what is given, what is left, and how it ends."""

    def __init__(self, name, lent_records):
        self.name, self.lent_records = name, lent_records
        self.params, self.promise, self.said, self.of, self.result = CALLS[name]
        self.machines, self.spelled = SPELLED[self.result]
        self.names = [n for n, _ in self.params]
        borrowed = ("shr", "mut", "out") + (("records",) if lent_records else ())
        self.life = {n: i for i, n in enumerate([n for n, s in self.params if s in borrowed])}
        self.kept = [n for n, s in self.params if s in ("mut", "out")]
        self.local = {n: 1 + i for i, n in enumerate(self.names)}
        self.lines = []

    def add(self, *lines):
        self.lines.extend(lines)

    def cell(self, sort):
        return "u8" if sort == "out" else "u32"

    def value(self, n, s):
        """The machine values of a parameter."""
        records = "slice-vals (at-name b o ys γ)" if self.lent_records else "recorded records"
        return {"head": "headed head", "num": f"vint w32 {n} ∷ []", "records": records}.get(s, f"slice-vals {n}")

    def owned(self, n, s):
        """The type by which a parameter is owned."""
        if s in ("head", "num"):
            return {"head": "Hd.the-row", "num": "u32"}[s]
        if n not in self.life:
            return "Array T.the-row 8"
        i, slice = self.life[n], "MutSlice" if s in ("mut", "out") else "ShrSlice"
        return f"{slice} (named {i}) κ{low(i)} " + ("T.the-row" if s == "records" else self.cell(s))

    def stays(self, n, s):
        """What is had of a parameter at the end."""
        if s in ("mut", "out"):
            return f"gave-slice ({self.life[n]} ∷ []) tt (plain (λ _. {self.cell(s)}))"
        kinds = {"head": "plain (λ _. Hd.the-row)", "num": "plain (λ _. u32)", "records": "plain (λ _. Array T.the-row 8)"}
        if n in self.life:
            row = "T.the-row" if s == "records" else "u32"
            return f"stay-dropped (shrSliceOf ({self.life[n]} ∷ []) tt (plain (λ _. {row}))) yes"
        return f"stay-dropped ({kinds[s]}) yes"

    def goes(self, n, s):
        word, rest = self.stays(n, s).split(" ", 1)
        if word == "stay-dropped":
            return f"goes-dropped 𝓤 H A W {len(self.life)} {rest} (λ κs x f. refl)"
        return f"goes-gave-slice 𝓤 H A W {len(self.life)} {self.life[n]} tt (plain (λ _. {self.cell(s)}))"

    def lifetimes(self, letter, among=None):
        return [f"{letter}{low(i)}" for i in (range(len(self.life)) if among is None else among)]

    def tokens(self, among):
        return " ⊛ ".join([f"‵ (flft κ{low(i)} q{low(i)})" for i in among] + ["‵ ftrue"])

    def promised(self, watches, reply, last):
        return self.said.format(ws=watches, j=reply, **last)

    def binders(self):
        records = "(b o : ℕ) (γ : GName) (ys : List Watch)" if self.lent_records else "(records : List Watch)"
        kinds = {"head": "(head : Head)", "records": records}
        return " ".join(kinds.get(s, f"({n} : {'ℕ' if s == 'num' else 'RefT (List ℕ)'})") for n, s in self.params)

    def denotation(self, s):
        records = "RefT (List Watch)" if self.lent_records else "List Watch"
        return {"head": "Head", "num": "ℕ", "records": records}.get(s, "RefT (List ℕ)")

    def begin(self, callee):
        """What stays of each parameter, the callee's contract, and what is given."""
        every, count = self.params, len(self.life)
        self.add(f"{MARK}: of what is lent for good its last value, of the others nothing",
                 "abbrev stayed : Stays (f.ended .signature .params) (f.ended .kept)",
                 "stayed = " + nest([self.stays(n, s) for n, s in every]), "",
                 f"module _ {GIVEN} {RUNS} where", f"  -- the contract of {callee}", "  abbrev Callee : Contract 𝓤",
                 "  Callee = tripleOf 𝓤 H A callee.signature (callee.spec 𝓤 H A mem run)", "",
                 f"module _ {GIVEN} (W : Given 𝓤 H A) {RUNS} ({' '.join(self.lifetimes('κ'))} : Lft) ({' '.join(self.lifetimes('q'))} : Share)",
                 f"    {self.binders()} where",
                 "  -- what is given: denotations, machine values, tokens and what is owned",
                 "  abbrev x : " + product([self.denotation(s) for _, s in every]),
                 "  x = " + nest(["at-name b o ys γ" if s == "records" and self.lent_records else n for n, s in every]), "",
                 "  abbrev at : " + product(["List Val"] * len(every)), "  at = " + nest([self.value(n, s) for n, s in every]), "",
                 "  abbrev given : List Val",
                 "  given = " + " ∷ ".join([f"vint w32 {n}" if s == "num" else f"only ({self.value(n, s)})" for n, s in every] + ["[]"]), "",
                 "  abbrev Entry : List (Item 𝓤)",
                 f"  Entry = ({self.tokens(range(count))}) ∷ ‵ (owns ({' ∷ '.join([self.owned(n, s) for n, s in every] + ['[]'])}) x at) ∷ []", "",
                 "  abbrev bound : walkOf 𝓤 H A f.ended stayed (f.clauses 𝓤 H A mem run) .Ghost",
                 f"  bound = (({nest(self.lifetimes('κ'))}, {nest(self.lifetimes('q'))}, tt, x, at), tt)", "",
                 "  abbrev Post : Val → SProp 𝓤", "  Post = walkOf 𝓤 H A f.ended stayed (f.clauses 𝓤 H A mem run) .post bound", "",
                 "  -- the tables as they are lent", "  abbrev lent : Lent",
                 "  lent = lent-tables (columns .now) (positions .now) (lowerEnds .now) (upperEnds .now)", "")

    def exits(self, left, gather):
        """From what is left at the return to what is promised."""
        last = [f"{n}-last" for n in self.kept]
        sorts = dict(self.params)
        finals = [f"‵ (finally {self.cell(sorts[n])} ({n} .name) {n}-last)" for n in self.kept]
        watches = "(watched ys)" if self.lent_records else "(watched records)"
        head = " ".join(["Left"] + last)
        self.add("  -- what is left at the return, with what is lent at its last values",
                 "  abbrev Left : " + "List ℕ → " * len(last) + "List (Item 𝓤)",
                 f"  {head} = " + " ∷ ".join(left + finals + ["[]"]), "",
                 "  exits : " + "".join(f"({n} : List ℕ) " for n in last) + f"(j : {self.result}) → Is R.the-row j ({self.machines} j) → "
                 + "".join(f"length {n}-last ≡ length ({n} .now) → " for n in self.kept)
                 + f"{self.promise} {self.promised(watches, 'j', {n: n + '-last' for n in self.kept})}"
                 + f" → ent 𝓤 (⋆ 𝓤 H A ({head})) (Post (only ({self.machines} j)))",
                 "  " + " ".join(["exits"] + last + ["j", "is"] + [f"{n}-len" for n in self.kept] + ["kept"]) + " =",
                 f"      qed W ({head}) ∵ suffices ! _ (ends-at 𝓤 H A f.ended stayed (f.clauses 𝓤 H A mem run) W bound (only ({self.machines} j)) j "
                 + nest([f"{n}-last" if n in self.kept else "tt" for n in self.names]) + " "
                 + nest([f"{n}-len" if n in self.kept else "tt" for n in self.names]) + ") $ says ! kept $", f"      {steps(gather)} frame ! $")
        final, joins = list(self.kept), ["nothing !"]
        for n in reversed(self.names):
            joins += [at(final.index(n) + 1, 0), "fjoin !"] if n in final else ["nothing !", "fjoin !"]
            final = [m for m in final if m != n]
        self.add(f"      {steps(joins)} frame ! $",
                 f"      owned ! R.the-row (Is R.the-row) ((LL.makes R.the-type R′.the-plain) 𝓤 H A) j ({self.machines} j) is $ done !", "")

    def fits(self):
        records = "(room : Room T.the-row (length ys))" if self.lent_records else "(is-records : Is (Array T.the-row 8) records (recorded records))"
        kinds = {"head": "(is-head : Is Hd.the-row head (headed head))", "records": records}
        return " ".join(kinds.get(s, f"({n}-fits : {n} < 2 ^ 32)" if s == "num" else f"({n}-fits : length ({n} .now) < 2 ^ 64)") for n, s in self.params)

    def typed(self, n, s):
        """That a parameter's value is one of its type."""
        records = "(tt, (tt, (record { fits = room .0 }, tt)))" if self.lent_records else ROWS
        kinds = {"head": "(LL.lawful Hd.the-type Hd′.the-laws 𝓤 H A W .typed head _ is-head .0)", "records": records,
                 "num": f"(tt, record {{ fits = {n}-fits }})"}
        return kinds.get(s, f"(tt, (tt, (record {{ fits = {n}-fits }}, tt)))")

    def place(self, local, before=0):
        """The place of a local, with so many items before the locals."""
        return 2 * (self.locals - 1 - local) + before

    def enter(self):
        """The locals, and what is given taken apart."""
        passed = [f"pass1 ! (init ! {self.place(self.local[n])} refl {self.typed(n, s)})" for n, s in self.params]
        p, k = len(self.params), len(self.life)
        self.add("    walk : ent 𝓤 (onEntry 𝓤 H A f.signature " + nest(self.lifetimes("κ")) + " " + nest(self.lifetimes("q"))
                 + " x at) (WpFn 𝓤 H C Λ code.function given Post)", "    walk =", "        qed W Entry ∵ enter ! C Λ code.function given _ $",
                 "        " + "".join(f"alloc1 ! (λ l{low(i)}. " for i in range(self.locals)) + steps(["alloc0 !", "params1 !"] + passed + ["pass0 !"]),
                 "        " + steps([at(2 * self.locals + 1)] + ["fsplit !", at(1)] * p + [at(2 * self.locals + p + 1)] + ["split !", at(1)] * k))
        names = ["true"] + self.lifetimes("κ", range(k - 1, -1, -1)) + ["true"] + self.names[::-1] + ["the locals"]
        self.add(f"        -- [{'; '.join(names)}]")

    def reborrow(self, n, first, before):
        """A slice lent on for good, from its local into two others."""
        here, a, b = self.place(self.local[n], before), self.place(first, before), self.place(first + 1, before)
        self.add(f"        assigns ! (addr ! (from ! (fld ! refl (hop ! (look-in ! {here} (sub ! 0 refl (whole !))) (stop !))))) (from ! (stop !)) (init ! {a} refl (tt, tt)) $",
                 f"        assigns ! (agg ! (and-then ! (load ! (from ! (stop !)) (look ! {a} refl)) (and-then ! (load ! (from ! (fld ! refl (stop !))) (look-in ! {here} (sub ! 1 refl (whole !)))) (no-more !)))) (from ! (stop !)) (init ! {b} refl (tt, (tt, (record {{ fits = {n}-fits }}, tt)))) $")

    def operands(self, places):
        return "(no-more !)" if not places else f"(and-then ! (load ! (from ! (stop !)) (look ! {places[0]} refl)) {self.operands(places[1:])})"

    def answered(self, order, tokens, lasts, said, known, landed):
        """What the callee hands back and leaves."""
        ends = []
        for n in order:
            ends += ["fsplit !", "fsplit !", at(1), f"feqL ! (λ {n}-same. {at(1)}"] if n in self.kept else ["fsplit !", "drop !", at(0)]
        front = [at(len(self.kept))] if self.kept else []
        self.add(f"        use1 W (later (some (λ (j : {self.result}). ({tokens} ⊛ ‵ (R.the-row .own j (c ∷ []))) ⊛ some (λ (zs : Ends). ‵ ({lasts}) ⊛ raw (fact 𝓤 ({said})))))) (id⊢ 𝓤 _) $ await ! tt $ pick ! (λ j. split ! $ {at(1)} $ pick ! (λ zs. split ! $ {at(1)} $ heard ! ({said}) (λ {known}.",
                 f"        {steps(ends)} drop ! $",
                 f"        {steps(front + ['split !', at(1)])} peeks ! R.the-row (Is R.the-row) (shows 𝓤 H A R.the-row) j (c ∷ []) (λ has. drop ! $",
                 f"        land ! (from ! (stop !)) (init ! {landed} refl (LL.lawful R.the-type R′.the-laws 𝓤 H A W .typed j _ has .0)) $ rewrite ! {landed} (λ (z : Val). ‵ (fat fullShare R′.mir l₀ 0 z)) (ap only (LL.tells R.the-type R′.the-laws j (c ∷ []) has)) refl $")

    def leave(self, forgets, frees, keep, order, kept, binders):
        """The return, the locals given back, and the end."""
        lasts = [f"(zs {'.1 ' * order.index(n)}.0)" for n in self.kept]
        exits = " ".join(["exits"] + lasts + ["j", f"({self.spelled} j c has)"] + [f"{n}-same" for n in self.kept] + [kept])
        self.add(f"        returns ! (look ! {forgets[-1]} refl) $ " + steps([f"forget ! {p} refl" for p in forgets]),
                 "        " + steps(sum([[at(a, b), "free1 !"] for a, b in frees], []) + ["free0 !"]),
                 f"        keep ! ({' ∷ '.join(map(str, keep))} ∷ []) $ by ! ({exits})" + ")" * (self.locals + binders + len(self.kept)), "")

    def close(self, crate, known):
        """That the walk is one of every entry, and so the function's contract."""
        sorts, k = [s for _, s in self.params], len(self.life)
        path = lambda word, i: f"({word} {'.1 ' * i}.0)"
        tells = {"head": "LL.tells Hd.the-type Hd′.the-laws", "num": "uint-tells w32", "records": "recorded-tells"}
        def told(n, s):
            if n not in self.life:
                return tells[s]
            row, word = "T.the-row" if s == "records" else self.cell(s), "mut" if s in ("mut", "out") else "shr"
            return f"{word}-slice-tells (named {self.life[n]}) {path('κs', self.life[n])} {row}"
        values = {"head": "headed", "num": "uint-vals w32", "records": "slice-vals" if self.lent_records else "recorded"}
        arguments, fits = [], []
        for i, (n, s) in enumerate(self.params):
            a, is_a = path("a", i)[1:-1], path("are", i)[1:-1]
            arguments += [f"({a} .ptr .0)", f"({a} .ptr .1)", f"({a} .name)", f"({a} .now)"] if s == "records" and self.lent_records else [f"({a})"]
            fits.append({"head": f"({is_a})", "num": f"({is_a} .1)", "records": f"({is_a} .0 .1)" if self.lent_records else f"({is_a})"}.get(s, f"({is_a} .0 .1 .0)"))
        binders = " ".join(f"({word} : Triple 𝓤 (𝓣 .C {symbol}) ({contract} 𝓤 H A mem run))" for word, symbol, contract, _ in known)
        words = " ".join(word for word, _, _, _ in known)
        function = "(WpFn 𝓤 H (𝓣 .C) (𝓣 .Λ) code.function)"
        self.add(f"module _ {GIVEN} (W : Given 𝓤 H A) {RUNS} (𝓣 : Tables 𝓤 H)", f"    {binders} where",
                 f"  {self.name}-walks : Walks 𝓤 H A f.ended stayed {function} (f.clauses 𝓤 H A mem run)", f"  {self.name}-walks =",
                 f"      walked 𝓤 H A f.ended stayed (f.clauses 𝓤 H A mem run) {function} (λ κs. {nest([values.get(s, 'slice-vals') for s in sorts])})",
                 f"      (λ κs. {nest([told(n, s) for n, s in self.params])})",
                 "      (λ κs qs bounds a g are. via 𝓤 _ (fst∗ 𝓤 _ (emp 𝓤)) (walk 𝓤 H A W mem run "
                 + " ".join(path("κs", i) for i in range(k)) + " " + " ".join(path("qs", i) for i in range(k)),
                 "      " + " ".join(arguments), "      " + " ".join(fits) + f" (𝓣 .C) (𝓣 .Λ) (fmOf 𝓤 H (W .laws) 𝓣) {words}))", "",
                 f"  {self.name}-meets : Meets 𝓤 H A f.signature {function} (f.spec 𝓤 H A mem run)", f"  {self.name}-meets =",
                 "      walk-meets 𝓤 H A f.ended stayed W", "      " + nest([self.goes(n, s) for n, s in self.params]),
                 f"      (f.clauses 𝓤 H A mem run) {function} (WpFn-mono 𝓤 H (W .laws) 𝓣 code.function) {self.name}-walks", "",
                 f"pub {self.name}-spec : {{M : Type 1}} → stated.statement M", "unfolding code.routine tablesOf", f"{self.name}-spec 𝓤 H 𝓜 𝓖 𝓡 =",
                 "    entered 𝓤 H (tripleOf 𝓤 H (𝓖 .A) f.signature (f.spec 𝓤 H (𝓖 .A) (𝓜 .mem) (𝓡 .run)))",
                 f"    (tables 𝓤 H 𝓜 𝓡 code.env .C) (tables 𝓤 H 𝓜 𝓡 code.env .Λ) #{crate}·{self.name} code.function (code.unfolded 𝓤 H 𝓜 𝓡)",
                 f"    ({self.name}-meets 𝓤 H (𝓖 .A) (givenOf 𝓤 H 𝓜 𝓖) (𝓜 .mem) (𝓡 .run) (tablesOf 𝓤 H 𝓜 (tables 𝓤 H 𝓜 𝓡 code.env))")
        cited = [f"    (cited 𝓤 H ({contract} 𝓤 H (𝓖 .A) (𝓜 .mem) (𝓡 .run)) 𝓜 𝓡 code.env {symbol} {by}-def.routine code.calls-{symbol[1:]} ({by}-thm.met 𝓤 H 𝓜 𝓖 𝓡))"
                 for _, symbol, contract, by in known]
        self.add(*cited[:-1], cited[-1] + ")")


def shared_walk(name):
    """The walk of a function of book_shared_records."""
    w = Walk(name, True)
    records, k = w.life["records"], len(w.life)
    lives = [i for i in range(k) if i != records]
    before, lent = 1 + len(w.params), 2 + len(w.params)
    w.locals = 3 + len(w.params) + 2 * len(w.kept)
    passed = {n: lent + 1 + 2 * i for i, n in enumerate(w.kept)}
    order = sum([["numbers", "lent"] if n == "records" else [n] for n in w.names], [])
    sorts = dict(w.params, numbers="numbers", lent="lent")
    pick = lambda n, numbers, many, other: {"numbers": numbers, "lent": many}.get(n) or other(n, sorts[n])
    home = HOMES[name]
    symbol = f"#{home.replace('_', '-')}·{name}"
    w.begin(f"`{name}` of `{home}`")
    w.add(f"  -- what `{name}` of `{home}` binds outside, that it is given what it asks, and what is known of its result",
          "  abbrev lives : " + product(["Lft"] * len(lives)), "  lives = " + nest(w.lifetimes("κ", lives)), "",
          "  abbrev Tokens : Item 𝓤", "  Tokens = " + w.tokens(lives), "",
          "  abbrev asked : List ℕ → " + product([pick(n, "List ℕ", "ℕ", lambda _, s: w.denotation(s)) for n in order]),
          "  asked r = " + nest([pick(n, "r", "length ys", lambda m, _: m) for n in order]), "",
          "  abbrev to : List ℕ → Val → Callee 𝓤 H A mem run .Ghost",
          f"  to r u = ((lives, {nest(w.lifetimes('q', lives))}, tt, asked r, {nest([pick(n, 'u ∷ []', 'vint w64 (length ys) ∷ []', w.value) for n in order])}), tt)", "",
          "  abbrev Passed : List ℕ → Val → Fml",
          f"  Passed r u = owns ({' ∷ '.join([pick(n, 'Array u64 8', 'usize', w.owned) for n in order] + ['[]'])}) (asked r) (to r u .0 .4)", "",
          "  goes : (r : List ℕ) (u : Val) → ent 𝓤 (sep 𝓤 (mean 𝓤 H A Tokens) (sem 𝓤 H A (Passed r u))) (Callee 𝓤 H A mem run .pre (to r u))",
          "  goes r u = qed W (Tokens ∷ ‵ (Passed r u) ∷ []) ∵ join ! $ frame ! $ nothing ! $ done !", "",
          "  abbrev Ends : Type 0", "  Ends = " + product(["List ℕ" if n in w.kept else "Unit {0}" for n in order]), "",
          f"  abbrev Promised : List ℕ → {w.result} → Ends → Type 0",
          f"  Promised r j zs = {w.promise} " + w.promised("(take (length ys) r)", "j", {n: f"(zs {'.1 ' * order.index(n)}.0)" for n in w.kept}), "")
    context, gather = ["all"] + lives[::-1] + [records], ["split !", at(1)] * len(lives)
    for i in range(k - 1, -1, -1):
        gather += [at(context.index(i), 0), "join !"]
        context.remove(i)
    w.exits(["Tokens", f"‵ (flft κ{low(records)} q{low(records)})"], gather)
    w.add(f"  module _ {w.fits()}",
          f"      (C : Calls 𝓤 H) (Λ : Loops 𝓤 H) (fm : FmC 𝓤 H (W .laws) C) (known-numbers : Triple 𝓤 (C #watch-records·numbers) (Numbers 𝓤 H A mem run)) (known-callee : Triple 𝓤 (C {symbol}) (Callee 𝓤 H A mem run)) where")
    w.enter()
    off = k + len(w.params) + 1
    here = w.place(w.local["records"], off)
    w.add(f"        {at(k - records, k + 2 + w.names[::-1].index('records'))} $ calls-numbers ! fm mem run known-numbers κ{low(records)} q{low(records)} b o ys γ {w.operands([here])} (λ u r is e.",
          f"        land ! (from ! (stop !)) (init ! {w.place(before, off)} refl (array-typed u64 (uint-lawful 𝓤 H A W w64 .typed) 8 r _ is .0)) $",
          f"        assigns ! (of-opd ! (load ! (from ! (fld ! refl (stop !))) (look-in ! {here} (sub ! 1 refl (whole !))))) (from ! (stop !)) (init ! {w.place(lent, off)} refl (tt, record {{ fits = room .0 }})) $")
    for n in w.kept:
        w.reborrow(n, passed[n], off)
    joins = ["nothing !"]
    for n in order[::-1]:
        joins += [pick(n, "owned ! (Array u64 8) (Is (Array u64 8)) (array-makes 𝓤 H A W u64 (uint-makes 𝓤 H A W w64) 8) r (u ∷ []) is",
                       "owned ! usize (Is usize) (uint-makes 𝓤 H A W w64) (length ys) _ (refl, room .0)", lambda *_: at(4, 0)), "fjoin !"]
    looks = [w.place(pick(n, before, lent, lambda m, _: passed[m] + 1 if m in passed else w.local[m]), 3) for n in order]
    w.add(f"        {steps([at(1)] + [at(2, 0), 'join !'] * len(lives))}", f"        {steps(joins)}",
          f"        {at(1, 0)} $ use2 W (raw (Callee 𝓤 H A mem run .pre (to r u))) (goes r u) $",
          f"        calls-at ! fm (Callee 𝓤 H A mem run) known-callee (to r u) {w.operands(looks)} (λ c.")
    kept = len(w.kept)
    w.answered(order, "Tokens", "lasts callee.ended lives (asked r) zs", "Promised r j zs", "said", w.place(0, kept + 3))
    places = [w.place(i, kept + 3) for i in range(w.locals)]
    w.leave(places[::-1], [(p, p + 1) for p in places], [0, kept + 1] + list(range(kept, 0, -1)), order, f"({name}-records ys {w.of} e said)", 6)
    w.close("book-shared-records", [("known-numbers", "#watch-records·numbers", "Numbers", "numbers"), ("known-callee", symbol, "Callee", "callee")])
    return w.lines


def valued_walk(name):
    """The walk of a function of book_by_value."""
    w = Walk(name, False)
    k, kept = len(w.life), len(w.kept)
    lives = ["ν" if n == "records" else w.life[n] for n in w.names if n == "records" or n in w.life]
    order, local, held = w.names, 2 + len(w.params), 1 + len(w.params)
    lent = {}
    for n, s in w.params:
        if n in w.kept or s == "records":
            lent[n], local = local, local + 2
    w.locals = local
    new = lambda old: [f"{old}{low(i)}" if i != "ν" else {"κ": "ν ∷ []", "q": "fullShare"}[old] for i in lives]
    either = lambda n, s, records, other: records if s == "records" else other(n, s)
    w.begin("the call")
    w.add("  -- what the call binds outside with the records in the local l, lent for ν under the name δ, that it is given what it asks, and what is",
          "  -- known of its result", "  abbrev held : ℕ → GName → RefT (List Watch)", "  held l δ = at-name l 0 records δ", "",
          "  abbrev Tokens : ℕ → Item 𝓤",
          "  Tokens ν = " + " ⊛ ".join([f"‵ (flft ({a}) {b})" if a.startswith("ν") else f"‵ (flft {a} {b})" for a, b in zip(new("κ"), new("q"))] + ["‵ ftrue"]), "",
          "  abbrev lives : ℕ → " + product(["Lft"] * len(lives)), "  lives ν = " + nest(new("κ")), "",
          "  abbrev asked : ℕ → GName → " + product([either(n, s, "RefT (List Watch)", lambda _, t: w.denotation(t)) for n, s in w.params]),
          "  asked l δ = " + nest([either(n, s, "held l δ", lambda m, _: m) for n, s in w.params]), "",
          "  abbrev to : ℕ → ℕ → GName → Callee 𝓤 H A mem run .Ghost",
          f"  to ν l δ = ((lives ν, {nest(new('q'))}, tt, asked l δ, {nest([either(n, s, 'slice-vals (held l δ)', w.value) for n, s in w.params])}), tt)", "",
          "  abbrev Passed : ℕ → ℕ → GName → Fml",
          f"  Passed ν l δ = owns ({' ∷ '.join([either(n, s, 'ShrSlice (named 0) (ν ∷ []) T.the-row', w.owned) for n, s in w.params] + ['[]'])}) (asked l δ) (to ν l δ .0 .4)", "",
          "  goes : (ν l : ℕ) (δ : GName) → ent 𝓤 (sep 𝓤 (mean 𝓤 H A (Tokens ν)) (sem 𝓤 H A (Passed ν l δ))) (Callee 𝓤 H A mem run .pre (to ν l δ))",
          "  goes ν l δ = qed W (Tokens ν ∷ ‵ (Passed ν l δ) ∷ []) ∵ join ! $ frame ! $ nothing ! $ done !", "",
          "  abbrev Ends : Type 0", "  Ends = " + product(["List ℕ" if n in w.kept else "Unit {0}" for n in order]), "",
          f"  abbrev Promised : {w.result} → Ends → Type 0",
          f"  Promised j zs = {w.promise} " + w.promised("(watched records)", "j", {n: f"(zs {'.1 ' * order.index(n)}.0)" for n in w.kept}), "")
    w.exits([f"‵ (flft κ{low(i)} q{low(i)})" for i in range(k)], ["nothing !"] + sum([[at(i, 0), "join !"] for i in range(k, 0, -1)], []))
    w.add(f"  module _ {w.fits()}",
          f"      (C : Calls 𝓤 H) (Λ : Loops 𝓤 H) (fm : FmC 𝓤 H (W .laws) C) (known : Triple 𝓤 (C #book-shared-records·{name}) (Callee 𝓤 H A mem run)) where",
          "    eight : length records ≡ 8", "    eight = is-records .1 .0 .1", "")
    w.enter()
    off, l = k + len(w.params) + 2, low(held)
    w.add(f"        assigns ! (of-opd ! (load ! (from ! (stop !)) (look ! {w.place(w.local['records'], off)} refl))) (from ! (stop !)) (init ! {w.place(held, off)} refl {ROWS}) $")
    for n in lent:
        if n != "records":
            w.reborrow(n, lent[n], off)
            continue
        a, b = w.place(lent[n], off), w.place(lent[n] + 1, off)
        w.add(f"        assigns ! (addr ! (from ! (stop !))) (from ! (stop !)) (init ! {a} refl (tt, tt)) $",
              f"        assigns ! (agg ! (and-then ! (load ! (from ! (stop !)) (look ! {a} refl)) (and-then ! (lit ! tt) (no-more !)))) (from ! (stop !)) (init ! {b} refl (tt, (tt, (record {{ fits = lit< tt }}, tt)))) $",
              f"        rewrite ! {b} (λ (m : ℕ). ‵ (fat fullShare (sliceTy (tyRef erased imm (pointee (T.the-row .written)))) l{low(lent[n] + 1)} 0 (sliceVal (l{l}, 0) m))) (sym eight) refl $")
    context, gather = ["all", "slice", "back", "ν", "true"] + list(range(k - 1, -1, -1)), ["nothing !"]
    for i in lives[::-1]:
        gather += [at(context.index(i), 0), "join !"]
        context.remove(i)
    context, gather = ["none"] + context + ["rest"] + order[::-1], gather + ["nothing !"]
    for n, s in w.params[::-1]:
        item = "slice" if s == "records" else n
        gather += [at(context.index(item), 0), "fjoin !"]
        context.remove(item)
    behind = lambda i, items: w.place(i, items) if i > held else w.place(i, items) - 1
    looks = [behind(lent[n] + 1 if n in lent else w.local[n], 5) for n in order]
    w.add("        -- the records are lent for a lifetime ν of the call",
          f"        lft-new ! tt (λ ν. {at(w.place(held, off) + 1)} $ shows-records ! tt (ν ∷ []) l{l} records eight is-records (λ δ.",
          f"        {steps(gather + [at(1, 0)])}", f"        use2 W (raw (Callee 𝓤 H A mem run .pre (to ν l{l} δ))) (goes ν l{l} δ) $",
          f"        calls-at ! fm (Callee 𝓤 H A mem run) known (to ν l{l} δ) {w.operands(looks)} (λ c.")
    w.answered(order, "Tokens ν", f"lasts callee.ended (lives ν) (asked l{l} δ) zs", "Promised j zs", "kept", w.place(0, kept + 5) - 1)
    apart = (["true"] + lives[::-1]).index("ν")
    w.add("        -- ν ends, and they come back",
          f"        {steps([at(0)] + ['split !', at(1)] * (k + 1) + [at(apart), 'lft-end ! tt', at(0, 2 + k + kept)])} shown-back ! tt l{l} records eight $")
    items = k + kept + 5
    forgets = [0 if i == held else behind(i, items) for i in range(w.locals - 1, -1, -1)]
    frees = [(behind(i, items), behind(i, items) + 1) for i in range(held)] + [(0, behind(held + 1, items) + 2)]
    frees += [(behind(i, items) - 1, behind(i, items)) for i in range(held + 1, w.locals)]
    w.leave(forgets, frees, list(range(k, 0, -1)) + list(range(k + kept, k, -1)), order, "kept", 7)
    w.close("book-by-value", [("known", f"#book-shared-records·{name}", "Callee", "callee")])
    return w.lines


for crate, walk in (("book_shared_records", shared_walk), ("book_by_value", valued_walk)):
    for name in CALLS:
        path = f"crates/{crate}/proofs/{name}/Proof.antt"
        if not os.path.exists(path):
            print(f"{path}: there is no walk of this function")
            continue
        with open(path) as file:
            imports = file.read().split(MARK)[0]
        with open(path, "w") as file:
            file.write(imports + "\n".join(walk(name)) + "\n")
