# What the scripts `run` of the examples and `.ci/run` share. Those of examples/destination and examples/station set `libraries` (the archives that their programs are linked with), `c` and `rust` (the compilers' options).
# Nothing is built again that is up to date. That goes by contents and not by times: FILE.sum holds a sum over all that FILE was made from, the
# tools among it, and over FILE itself.

# CRATE: it and the crates below it, one to a line, as crates.txt has them.
crates_of() {
    awk -v wanted="$1" '
        function visit(n,    a, k, m) {
            if (!(n in needs) || n in seen) return
            seen[n] = 1
            print n
            m = split(needs[n], a, " ")
            for (k = 1; k <= m; k++) visit(a[k])
        }
        { sub(/#.*/, ""); i = index($0, ":"); split($0, a, /[ \t:]+/); if (i) needs[a[1]] = substr($0, i + 1) }
        END { visit(wanted) }' crates.txt
}

# CRATE: the sum of what its library is made from: the prover with its libraries, and the crates.
library_sum() {
    local folders
    folders=$(crates_of "$1" | grep . | sed 's|^|crates/|') || return
    # shellcheck disable=SC2086
    { rt version && uname -m && sha256sum crates.txt && find $folders -name out -prune -o -type f -print | sort | xargs sha256sum; } | sha256sum
}

# SOURCE: the sum of what a C program is made from, the headers of the system too.
c_sum() {
    { gcc --version && echo "${c[@]}" && sha256sum "${libraries[@]}" && gcc "${c[@]}" -M "$1" | sed 's/^[^:]*://; s/\\$//' | xargs sha256sum; } | sha256sum
}

# SOURCE..: the sum of what a Rust program is made from.
rust_sum() {
    { rustc -vV && echo "${rust[@]}" && sha256sum "${libraries[@]}" "$@"; } | sha256sum
}

# FILE SUM COMMAND..: does the command, which makes FILE, unless FILE was made from the same and is as it was made.
made() {
    local file=$1 sum=$2
    shift 2
    if [ -f "$file" ] && [ -f "$file.sum" ] && [ "$(cat "$file.sum")" = "$sum $(sha256sum <"$file")" ]; then
        echo "$file is up to date"
        return
    fi
    rm -f "$file.sum"
    "$@"
    echo "$sum $(sha256sum <"$file")" >"$file.sum"
}

# [--after-ci] CRATE: its archive in target/staticlib, by tools/build.
archive() {
    local crate=${!#} sum
    sum=$(library_sum "$crate") || return
    made "target/staticlib/lib${crate%_c}.a" "$sum" tools/build "$@"
}

# PROGRAM EXPECTED
printed_as_expected() {
    "$1" > "$1.printed" || { cat "$1.printed"; exit 1; }
    diff -u "$2" "$1.printed"
}

warnings=(-Wall -Wextra -Wconversion -Wsign-conversion -Werror)

# HEADER: it alone, as C and as C++.
header_alone() {
    gcc -std=c99 "${warnings[@]}" -pedantic -fsyntax-only -x c "$1"
    if command -v g++ > /dev/null; then
        g++ -std=c++11 "${warnings[@]}" -pedantic -fsyntax-only -x c++ "$1"
    fi
}
