#!/usr/bin/env bash
# Lists the lines at which an older form may stand, point by point, at a commit: tools/forms.sh [COMMIT] [POINT].
# A line is a candidate; docs/DESIGN-PASS.md says which are places and what became of them.
set -euo pipefail
cd "$(dirname "$0")/.."
at="${1:-HEAD}"
only="${2:-}"
src=('crates/*/src/*.rt' ':!crates/examples/src/*tests.rt')

show() { # POINT PATTERN
    if [ -z "$only" ] || [ "$only" = "$1" ]; then
        echo "== $1: $(git grep -hE "$2" "$at" -- "${src[@]}" | wc -l) lines"
        git grep -nE "$2" "$at" -- "${src[@]}" | sed "s/^$at://" || true
    fi
}

show enums '\benum [A-Z]'
show codes '(number|layer|kind|code|least): u(8|32)\b|-> u8\b|=> -?[0-9]+,$|part_of|255'
show loops '^ *while |^ *for [a-z_]+ in [^ ]*\.\.'
show conversions '=> ([0-9]+|[A-Z][A-Za-z]+::[A-Z][A-Za-z]+(\([A-Za-z:]+\))?),$|impl (From|TryFrom)|fn (put_decimal|decimal_size|put_signed|signed_size|bit_edge|reply_of|refused_at)\b'
show arrays '\[[^]]*; ?[0-9A-Z_]+\]|\[[^]]*; ?$'
show switches 'match .*(operation|stage|kind|goal\(\)|step|sense)'
if [ -z "$only" ] || [ "$only" = clauses ]; then
    echo "== clauses: requires and ensures that stand, with self in place of parameters, in three contracts or more"
    git grep -hoE '(requires|ensures|ghost) [a-z_]* ?:? ?\{.*\}' "$at" -- "${src[@]}" |
        sed -E 's/^(requires|ensures|ghost) [a-z_]* ?:? ?//; s/\b(self|table|rows|reader|job|out)\.(old|new|now)\b/\1/g; s/[A-Za-z_.]+\.(old|now) /x /g' |
        sort | uniq -c | sort -rn | awk '$1 >= 3'
fi
if [ -z "$only" ] || [ "$only" = signatures ]; then
    echo "== signatures: parameter names that stand together in three functions or more"
    git grep -hE '^ *(pub )?fn [a-z_]+' "$at" -- "${src[@]}" | grep -oE '\(.*' | grep -oE '[a-z_]+: ' | tr -d ': ' | sort | uniq -c | sort -rn | awk '$1 >= 3'
fi
