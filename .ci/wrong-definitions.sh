#!/usr/bin/env bash
# Tries wrong definitions: each .ci/wrong-definitions/*.edit changes a definition of one crate, and the theorems of another must then be refused.
# An edit has the lines of a must-fail edit ('file:', then pairs of 'old:' and 'new:'), and before them 'crate: NAME', whose definition is changed,
# and 'breaks: NAME', whose theorems fail. What stands between the two must still be proved. The last line tells how many were refused; the status is 0 where all were.
# With arguments only those edits are tried, by their labels. Up to RT_JOBS are tried at a time, by default as many as the machine has processors.
# Each is tried in a copy outside the checkout, since `rt ci` refuses source that stands anywhere else in it; what was said of each stays in target/wrong-definitions.
set -u
cd "$(dirname "$0")/.." || exit 2
logs=$PWD/target/wrong-definitions
mkdir -p "$logs" && place=$(mktemp -d) || exit 2
trap 'rm -rf "$place"' EXIT

# The crates below one, itself the last, as crates.txt has them.
below() {
    awk -v want="$1" '
        /^#/ || NF == 0 { next }
        { name = $1; sub(/:$/, "", name); needs[name] = ""; for (i = 2; i <= NF; i++) needs[name] = needs[name] " " $i }
        function visit(n,   parts, k, count) {
            if (n in seen || !(n in needs)) return
            seen[n] = 1
            count = split(needs[n], parts, " ")
            for (k = 1; k <= count; k++) visit(parts[k])
            print n
        }
        END { visit(want) }' crates.txt
}

# Puts an edit's 'new:' texts in place of its 'old:' texts, each of which stands once in its file.
apply() { # EDIT FOLDER
    local file='' old='' line
    while IFS= read -r line || [ -n "$line" ]; do
        case $line in
        'file: '*) file=$2/${line#file: } ;;
        'old: '*) old=${line#old: } ;;
        'new: '*)
            OLD=$old NEW=${line#new: } awk '
                { text = text $0 "\n" }
                END {
                    old = ENVIRON["OLD"]; at = index(text, old)
                    if (!at || index(substr(text, at + length(old)), old)) exit 3
                    printf "%s%s%s", substr(text, 1, at - 1), ENVIRON["NEW"], substr(text, at + length(old))
                }' "$file" >"$file.edited" || return 1
            mv "$file.edited" "$file"
            ;;
        esac
    done <"$1"
}

# Tries an edit, and leaves what is to be said of it in LABEL.said: a line that begins with 'refused' where it is refused.
try() { # LABEL
    local edit=.ci/wrong-definitions/$1.edit here=$place/$1 log=$logs/$1.log said=$logs/$1.said changed broken crates c
    changed=$(sed -n 's/^crate: //p' "$edit")
    broken=$(sed -n 's/^breaks: //p' "$edit")
    mkdir -p "$here/crates"
    crates=$(below "$broken")
    for c in $crates; do
        mkdir "$here/crates/$c"
        for part in src specs proofs; do
            [ ! -d "crates/$c/$part" ] || cp -R "crates/$c/$part" "$here/crates/$c/$part"
        done
        grep "^$c:" crates.txt >>"$here/crates.txt"
    done
    echo 'BAD EDIT' >"$said"
    : >"$log"
    if apply "$edit" "$here/crates/$changed"; then
        (cd "$here" && rt all check --jobs 1) >"$log" 2>&1
        judge
    fi
    rm -rf "$here"
}

# What is to be said of an edit by its log: each crate below the broken one is proved, and that one is not, by an error in one of its own files.
judge() {
    local first
    echo "NOT REFUSED by $broken" >"$said"
    for c in $crates; do
        [ "$c" = "$broken" ] || grep -qx "$c: ok" "$log" || return
    done
    grep -qx "$broken: failed (1)" "$log" || return
    first=$(sed -n "/^== $broken\$/,/^== summary\$/p" "$log" | grep -m 1 -E '^(\./[^ ]*: error|note: [^ ]*: it is not proved)' | cut -c1-200)
    [ -z "$first" ] || echo "refused, as it must be: $first" >"$said"
}

# All edits by their labels, those first for which most crates are proved.
all() {
    local edit
    for edit in .ci/wrong-definitions/*.edit; do
        echo "$(below "$(sed -n 's/^breaks: //p' "$edit")" | wc -l) $(basename "$edit" .edit)"
    done | sort -rn | sed 's/.* //'
}

[ $# -gt 0 ] || set -- $(all)
for label in "$@"; do
    while [ "$(jobs -rp | wc -l)" -ge "${RT_JOBS:-$(nproc)}" ]; do wait -n; done
    try "$label" &
done
wait

refused=0 failed=0
for label in "$@"; do
    said=$(cat "$logs/$label.said")
    echo "wrong definition $label: $said"
    case $said in
    refused*) refused=$((refused + 1)) ;;
    *) failed=$((failed + 1)) ;;
    esac
done
echo "$refused wrong definitions refused, $failed not"
[ $failed -eq 0 ]
