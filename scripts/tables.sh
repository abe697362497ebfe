# shellcheck shell=bash
# What ./report and ./rewrite share: a program is run on the text of each table, and where one is refused, standard error says why. A script that calls
# this has set `help`, what it says of itself, and is where its user called it.
set -Eeuo pipefail
# whatever fails that is not said otherwise: it could not be run
trap 'exit 2' ERR
self=$(basename "$0")
here=$(cd "$(dirname "$0")" && pwd)
help="$help
Exit status: 0 all tables are accepted, 1 one is refused, 2 it could not be run.
The first time everything is proved and built, which takes some minutes; README.md says how a table is written."

# Of a number of refusal, in the words of README.md: what is wrong (column 3), or how the text is mended (column 4).
words() { # NUMBER COLUMN
    awk -F ' *[|] *' -v number="$1" -v column="$2" '
        /^## / { there = $0 == "## When a table is refused" }
        there && $2 == number { print $column }' README.md
}

# What the fields behind a line's first word are called.
declare -A fields=(
    [span]='span'
    [server]='kind capacity period'
    [once]='server work instant deadline'
    [every]='server work offset period deadline'
)

# The name of the field at a place.
name_field() { # FILE LINE PLACE
    local first
    first=$(sed -n "$2p" "$1" | cut -f 1)
    cut -d ' ' -f $(($3 - 1)) <<<"${fields[$first]}"
}

# Shows a line, control bytes spelt out, as far as 200 bytes; there is none behind the last. Under the field at a place, if one is meant and shown,
# stands a mark: the tabs before it are repeated, so that it stands there whatever their width.
show_line() { # FILE LINE PLACE
    sed -n "$2p" "$1" | cat -v | cut -b 1-200 | awk -F '\t' -v place="$3" '
        function all(sign, field) { gsub(/./, sign, field); return field }
        { print "    " $0 }
        place > 0 && place <= NF {
            mark = $place == "" ? "^" : all("^", $place)
            while (--place > 0) mark = all(" ", $place) "\t" mark
            print "    " mark
        }'
}

# Says on standard error why a table is refused, and shows the line.
explain() { # NAME FILE NUMBER LINE PLACE
    local where=
    [ "$4" -eq 0 ] || where=", line $4"
    [ "$5" -eq 0 ] || where="$where, field $5, $(name_field "$2" "$4" "$5")"
    echo "$self: $1: refused $3$where: $(words "$3" 3)" >&2
    [ "$4" -eq 0 ] || show_line "$2" "$4" "$5" >&2
    echo "    to mend it: $(words "$3" 4)" >&2
}

# Answers a question for help, and ends the script where a word names no table.
test_words() { # WORD..
    if [ $# -eq 0 ]; then echo "$help" >&2; exit 2; fi
    for word in "$@"; do
        case $word in
            -h | --help) echo "$help"; exit 0 ;;
            -) ;;
            -*) echo "$self: there is no option $word" >&2; echo "$help" >&2; exit 2 ;;
            *)
                [ -r "$word" ] || { echo "$self: there is no file $word to read" >&2; exit 2; }
                [ ! -d "$word" ] || { echo "$self: $word is a folder, not a table" >&2; exit 2; }
                ;;
        esac
    done
}

# Reads each table once, so that it may be a pipe, and no further than it takes to see that it is too long.
read_tables() { # TABLE..
    room=$(mktemp -d)
    trap 'rm -rf "$room"' EXIT
    local i=0
    for word in "$@"; do
        i=$((i + 1))
        if [ "$word" = - ]; then head -c 5000; else head -c 5000 -- "$word"; fi >"$room/$i"
    done
}

# Writes what the program of the script's name answers to each table, and ends the script.
answer_tables() { # TABLE..
    test_words "$@"
    read_tables "$@"
    cd "$here"
    . scripts/common.sh
    find_programs "$self"
    local status=0 i=0 name said word number line place
    for name in "$@"; do
        i=$((i + 1))
        [ "$name" != - ] || name='standard input'
        [ $# -eq 1 ] || echo "$self: $name" >&2
        said=$("target/bin/$self" <"$room/$i")
        [ -n "$said" ] || { echo "$self: the program wrote nothing" >&2; exit 2; }
        printf '%s\n' "$said"
        IFS=$'\t' read -r word number line place <<<"$said"
        if [ "$word" = refused ]; then
            explain "$name" "$room/$i" "$number" "$line" "$place"
            status=1
        fi
    done
    exit "$status"
}
