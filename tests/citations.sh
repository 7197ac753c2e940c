#!/usr/bin/env bash
# Asks that what the texts cite exists in the tree: every path; in docs/PROOFS.md every name in backquotes too, and where a
# path stands in brackets right behind a name, that the name is declared there.
# usage, from the root: tests/citations.sh [TEXT]     names are asked for in this text, docs/PROOFS.md by default
set -euo pipefail
export LC_ALL=C
text=${1:-docs/PROOFS.md}
# words of the language and the commands
words='rt make requires ensures pub'

# What is declared, as lines `file name`: crates, and in them theorems, definitions, records, fields, functions, types. What rt keeps in
# out/ declares nothing.
declared() {
    ls -d crates/*/ | sed -E 's|^(crates/(.*))/$|\1 \2|'
    find crates -name out -prune -o -name '*.antt' -print | sed -E 's|^(.*/([^/]*)\.antt)$|\1 \2|'
    grep -rHE --exclude-dir=out --include='*.antt' '^ *[^ -]' crates | sed -nE \
        -e 's/^([^:]+): *((unfoldable|pub|private|field|abbrev) )*([^ :(){}]+) :.*/\1 \4/p' \
        -e 's/^([^:]+): *((unfoldable|pub|private) )*(record|data|abbrev|mod|module) ([^ :(){}]+).*/\1 \5/p'
    grep -rHE --exclude-dir=out --include='*.rt' '^ *[A-Za-z]' crates | sed -nE \
        -e 's/^([^:]+): *(pub )?(extern "C" )?(fn|struct|enum|const|mod|type) ([A-Za-z0-9_]+).*/\1 \5/p' \
        -e 's/^([^:]+): +([A-Z][A-Za-z]*)(,|\(.*)$/\1 \2/p'
}

# The paths of some texts, as lines `text:line path`; a pattern, as crates/NAME, is left out, and so is what rt makes, as crates/host/out.
paths() {
    grep -HnoE '(crates|docs|tests|tools|bench|host|tapes|\.ci)/[A-Za-z0-9_.*/-]*[A-Za-z0-9_*]' "$@" |
        sed -E 's/^([^:]+:[0-9]+):/\1 /' | grep -vE '/(NAME|LABEL|NN)([/.]|$)|/out(/|$)|\*'
}

# The names of a text and the paths in brackets right behind them, as lines `text:line name [path]`.
names() {
    grep -HnoE '`[A-Za-z][^` /]*`( \(crates/[A-Za-z0-9_./-]*[A-Za-z0-9_])?' "$1" |
        sed -E -e 's/^([^:]+:[0-9]+):/\1 /' -e 's/`//g; s/ \(/ /'
}

mkdir -p build
declared > build/declared.txt
status=0
while read -r place path; do
    [ -e "$path" ] || { echo "$place: no such path: $path"; status=1; }
done < <(find README.md CONTRIBUTING.md docs "$text" -name '*.md' | sort -u | while read -r t; do paths "$t" || true; done)
names "$text" | awk -v words="$words" '
    BEGIN { n = split(words, w, " "); for (i = 1; i <= n; i++) known[w[i]] = 1 }
    FNR == NR { known[$2] = 1; at[$2] = at[$2] " " $1; next }
    { missing = 0; parts = split($2, part, /::|\./)
      for (i = 1; i <= parts; i++) if (part[i] != "" && !(part[i] in known)) missing = 1
      if (missing) { print $1 ": no such name: " $2; bad = 1 }
      else if ($3 != "" && !index(at[part[parts]], " " $3)) { print $1 ": " $2 " is not declared in " $3; bad = 1 } }
    END { exit bad }' build/declared.txt - || status=1
[ "$status" -ne 0 ] || echo "citations: every path and every name exists"
exit "$status"
