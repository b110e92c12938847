#!/bin/sh
# Writes the refusals of crates/refusal/refusals.txt into the files that repeat them, between their lines 'refusals.txt {' and
# '} refusals.txt'. A new refusal is one line in the list and one run of this script; it needs no other edit.
#
#     tools/refusals.sh            writes the files
#     tools/refusals.sh --check    names the files that differ from what it would write, and then ends with 1
set -eu
cd "$(dirname "$0")/.."
list=crates/refusal/refusals.txt
files="crates/refusal/src/lib.rt crates/refusal/specs/Refusal.antt include/svx.h host/svx/src/refusal.rs"
scratch=$(mktemp -d)
trap 'rm -rf "$scratch"' EXIT

case ${1-} in
"" | --check) ;;
*)
    echo "usage: tools/refusals.sh [--check]" >&2
    exit 2
    ;;
esac

# The list is sound: rising numbers that fit a byte, each name once, words that stand as they are in every language and on one line.
awk '
function bad(why) { print FILENAME ":" FNR ": " why > "/dev/stderr"; wrong = 1 }
/^#/ || /^$/ { next }
!/^[1-9][0-9]* [A-Z][A-Z0-9_]* [A-Za-z0-9]/ { bad("not a number, a name and words"); next }
$1 <= last || $1 > 255 { bad("the number doesn\047t rise, or is above 255") }
$2 in seen { bad("the name stands twice") }
/[^-A-Za-z0-9_ ,.()^\047]/ || /[ .]$/ { bad("the words have another sign than letters, digits and - , . ( ) ^, or a stop at the end") }
length > 110 { bad("the words are too long for a line") }
{ last = $1; seen[$2] = 1 }
END { exit wrong }
' "$list"

# One file with its part made anew: variants, equations, arms, or (all but the Rust crate's have two parts) lines of a comment and cases.
made() {
    awk '
    function words(    w) { w = $0; sub(/^[0-9]+ [A-Z0-9_]+ /, "", w); return w }
    function variant(name,    parts, n, i, v) {
        n = split(tolower(name), parts, "_")
        for (i = 1; i <= n; i++) v = v toupper(substr(parts[i], 1, 1)) substr(parts[i], 2)
        return v
    }
    function sentence(w) { return toupper(substr(w, 1, 1)) substr(w, 2) "." }
    FNR == NR {
        if (/^#/ || /^$/) next
        count++
        w = words()
        rt[count] = "    // " sentence(w) "\n    " variant($2) " = " $1 ","
        said[count] = "            Refusal::" variant($2) " =>" (length(w variant($2)) > 74 ? "\n                " : " ") "\"" w "\","
        antt[count] = "-- " w "\nnumber_of " variant($2) " = " $1
        names = names (count > 1 ? ", " : "") variant($2)
        note[count] = sprintf(" * %2d  %s", $1, w)
        arm[count] = "        " $1 " => \"" w "\","
        c[count] = "    case " $1 ": return \"" w "\";"
        next
    }
    /refusals\.txt \{/ {
        print
        inside = 1
        parts++
        if (kind == "antt" && parts == 1) print "use Rattle.refusal.specs.declared.Refusal.TheVariants.{" names "}"
        else for (i = 1; i <= count; i++)
            print kind == "rt" ? (parts == 1 ? rt[i] : said[i]) : kind == "antt" ? antt[i] : kind == "rs" ? arm[i] : parts == 1 ? note[i] : c[i]
    }
    /\} refusals\.txt/ { if (kind == "antt") print ""; inside = 0; ends++ }
    !inside
    END { exit parts != (kind == "rs" ? 1 : 2) || ends != parts }
    ' "$list" kind="${1##*.}" "$1"
}

differ=0
for file in $files; do
    mkdir -p "$scratch/$(dirname "$file")"
    made "$file" >"$scratch/$file" || {
        echo "$file: its part for refusals.txt isn't there or isn't closed" >&2
        exit 2
    }
    if cmp -s "$scratch/$file" "$file"; then continue; fi
    if [ "${1-}" = --check ]; then
        echo "$file: not what $list says; run tools/refusals.sh"
        differ=1
    else
        cat "$scratch/$file" >"$file"
    fi
done
exit $differ
