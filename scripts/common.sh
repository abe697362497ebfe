# shellcheck shell=bash
# What the scripts share: proving and building with the kit, and where what was built stands. They are in the repository's root when they call this.

# Ends the script where a command is missing.
need() { # COMMAND WHY
    command -v "$1" >/dev/null || { echo "$(basename "$0"): $2" >&2; exit 2; }
}

# The crates that stand below the ones named, and these, in the order in which the kit proves them.
crates_below() {
    awk -F: -v wanted="$*" '
        function visit(crate,   below, k, i) {
            if (crate in seen || !(crate in needs)) return
            seen[crate]
            k = split(needs[crate], below, " ")
            for (i = 1; i <= k; i++) visit(below[i])
            print crate
        }
        !/^#/ && NF > 1 { split($1, words, " "); needs[words[1]] = $2 }
        END {
            n = split(wanted, todo, " ")
            for (j = 1; j <= n; j++) visit(todo[j])
        }' crates.txt
}

# Whether what was built of a crate is newer than every file that it is made from.
is_fresh() { # FILE CRATE
    local parts
    [ -f "$1" ] || return 1
    mapfile -t parts < <(crates_below "$2" | sed 's|^|crates/|')
    [ -z "$(find crates.txt "${parts[@]}" \( -name out -o -name must-fail \) -prune -o -type f -newer "$1" -print -quit)" ]
}

# Says which crate is being proved and how many are left, each time that this changes. The kit names each crate when it begins to prove it, and does not
# name one that has not changed since it was last proved.
say_progress() { # LOG CRATE..
    local log=$1 said='' under crate left
    shift
    while kill -0 "$$" 2>/dev/null; do
        under=$(sed -n 's/^rt: chose --jobs [0-9]* for //p' "$log" | tail -n 1)
        if [ -n "$under" ] && [ "$under" != "$said" ]; then
            left=0
            for crate in "$@"; do
                if [ "$left" -gt 0 ] || [ "$crate" = "$under" ]; then left=$((left + 1)); fi
            done
            echo "$(basename "$0"): proving $under; $left of $# crates left" >&2
        fi
        said=$under
        sleep 0.3
    done
}

# The file that `rt COMMAND` makes of a crate.
made() { # COMMAND CRATE
    if [ "$1" = lib ]; then echo "crates/$2/out/lib$2.a"; else echo "crates/$2/out/$2"; fi
}

# Proves and builds by `rt COMMAND` in a crate's folder, and says on standard error what is being proved; nothing is said where nothing is to be proved.
# What it makes counts as made when its proof began, so that it is made again where a file changed meanwhile.
prove() { # COMMAND CRATE
    need rt "the Rattle kit's command rt is not on the PATH"
    local log=target/log/prove.log status=0 watcher
    mkdir -p target/log
    : >"$log.began"
    : >"$log"
    # shellcheck disable=SC2046 # the crates are words
    say_progress "$log" $(crates_below "$2") &
    watcher=$!
    # `rt run` also runs the program, here on nothing
    (cd "crates/$2" && PYTHONUNBUFFERED=1 exec rt "$1") </dev/null >>"$log" 2>&1 || status=$?
    kill "$watcher"
    wait "$watcher" 2>/dev/null || true
    [ "$status" -eq 0 ] || { cat "$log" >&2; exit 2; }
    touch -r "$log.began" "$(made "$1" "$2")"
}

# Puts what was built of a crate into a folder, from where `rt ci`, which clears each crate's out/, does not take it away. It is proved and built here unless
# it stands there or in out/ and is newer than every file that it is made from.
put_built() { # COMMAND CRATE FOLDER
    local file to
    file=$(made "$1" "$2")
    to=$3/$(basename "$file")
    if is_fresh "$to" "$2"; then return; fi
    is_fresh "$file" "$2" || prove "$1" "$2"
    mkdir -p "$3"
    cp -p "$file" "$to.$$"
    mv -f "$to.$$" "$to"
}

# Has programs stand in target/bin, proved and built. Of those that `rt ci` has just proved and built nothing is proved again.
find_programs() { # PROGRAM..
    local program
    for program in "$@"; do put_built run "$program" target/bin; done
}

# Sets `archive`: in the folder that GRODVEJAS_LIB names by its full path, or else proved and built here.
find_archive() {
    archive=${GRODVEJAS_LIB:-target/staticlib}/libgrodvejas.a
    if [ -n "${GRODVEJAS_LIB:-}" ]; then
        [ -r "$archive" ] || { echo "there is no $archive (GRODVEJAS_LIB)" >&2; exit 2; }
        return
    fi
    put_built lib grodvejas target/staticlib
}

# The C compiler.
compiler=gcc

# It has to be there.
find_compiler() {
    need "$compiler" "there is no $compiler"
}
