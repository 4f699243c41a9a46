# What tools/bobbincrag and tools/install share: the static library and the command.
# They are built where they are missing, or were made from other files than those that are there.
# `name` is the tool's name, for what is said. Lines go to standard error. It is read by `.`, and gives `root`, `library`, `program` and `built`.

root=$(cd -P "$(dirname "$0")/.." && pwd -P)
library=$root/target/staticlib/libc_api.a
program=$root/target/bindings/release/bobbincrag

said() {
    echo "tools/$name: $1" >&2
}

stop() {
    said "$1"
    exit 1
}

# sums FROM..: one sum over names and bytes of all files below FROM, without what `rt` makes in out/ of a crate
sums() {
    (cd "$root" && find "$@" -path 'crates/*/out' -prune -o -type f -print 2>/dev/null | LC_ALL=C sort | xargs cksum | cksum)
}

# older MADE FROM..: whether a file is missing, or was made from other bytes than those below FROM.
# Where none of these is newer, they are not read; where one is, the sums decide.
older() {
    made=$1
    shift
    [ -e "$made" ] && [ -e "$made.sum" ] || return 0
    [ -n "$(cd "$root" && find "$@" -path 'crates/*/out' -prune -o -newer "$made.sum" -print 2>/dev/null | head -n 1)" ] || return 1
    [ "$(sums "$@")" = "$(cat "$made.sum")" ] || return 0
    touch "$made.sum"
    return 1
}

# kept MADE FROM..: the sum that a file was made from
kept() {
    made=$1
    shift
    sums "$@" >"$made.sum"
}

# needs COMMAND WHAT: a sentence where a command is not installed
needs() {
    command -v "$1" >/dev/null 2>&1 || stop "$1 is missing: $2"
}

# below CRATE: how many crates are proved for one, itself too
below() {
    awk -v top="$1" 'function walk(c, k, n, d) { if (seen[c]++) return; count++; n = split(on[c], d, " "); for (k = 1; k <= n; k++) walk(d[k]) }
        /^[a-z_0-9]+( staticlib)?:/ { c = $1; sub(":", "", c); sub("^[^:]*:", ""); on[c] = $0 } END { walk(top); print count }' "$root/crates.txt"
}

# counted TOTAL: passes lines on to file descriptor 3, and says on standard error how many crates are done: on a terminal in one line, else every ten.
# A crate that is proved ends with a line `logic=proved ..`. One that an earlier call proved has no line.
counted() {
    total=$1 done=0 start=$(date +%s)
    while IFS= read -r line; do
        printf '%s\n' "$line" >&3
        case $line in
            "logic=proved "*) done=$((done + 1)) ;;
            *) continue ;;
        esac
        at="tools/$name: $done of $total crates proved, $(($(date +%s) - start)) s"
        if [ -t 2 ]; then
            printf '\r%s ' "$at" >&2
        elif [ $((done % 10)) = 0 ]; then
            printf '%s\n' "$at" >&2
        fi
    done
    [ ! -t 2 ] || [ "$done" = 0 ] || printf '\n' >&2
}

# made COMMAND..: runs a command, and shows what it says only where it fails
made() {
    log=$(mktemp) && exec 3>"$log" 4<"$log" && rm -f "$log" || return 1
    (cd "$root" && exec "$@") >&3 2>&3 </dev/null 3>&- 4<&- && failed=0 || failed=1
    [ $failed = 0 ] || cat <&4 >&2
    exec 3>&- 4<&-
    return $failed
}

# copied: the library that `rt lib` made, at its place below target/
copied() {
    mkdir -p "${library%/*}" && { cmp -s "$root/crates/c_api_c/out/libc_api_c.a" "$library" || cp "$root/crates/c_api_c/out/libc_api_c.a" "$library"; }
}

# proved: the static library, with a count of the crates that are done
proved() {
    log=$(mktemp) && exec 3>"$log" 4<"$log" && rm -f "$log" || return 1
    # the status of rt, not that of the count
    failed=$({ { (cd "$root/crates/c_api_c" && exec rt lib) </dev/null 2>&1 3>&- 4<&- 5>&-; echo $? >&5; } | counted "$(below c_api_c)" >/dev/null; } 5>&1)
    [ "$failed" = 0 ] || cat <&4 >&2
    exec 3>&- 4<&-
    [ "$failed" = 0 ] && copied && kept "$library" crates crates.txt
}

sources="bindings/rust/src bindings/rust/build.rs bindings/rust/Cargo.toml bindings/rust/Cargo.lock target/staticlib/libc_api.a.sum"

compiled() {
    made cargo build --quiet --release --offline --manifest-path bindings/rust/Cargo.toml --target-dir target/bindings --bin bobbincrag && kept "$program" $sources
}

# built: the library, which is proved before it is built, and the command; a line where that takes long
built() {
    if older "$library" crates crates.txt; then
        needs rt "the toolchain that README.md names proves and builds the library"
        needs cargo "a Rust toolchain builds the command (README.md names the version)"
        said "proving $(below c_api_c) crates and building the library: it takes many minutes where nothing is proved yet, and once"
        proved && compiled
    elif older "$program" $sources; then
        needs cargo "a Rust toolchain builds the command (README.md names the version)"
        { sleep 2 </dev/null >/dev/null 2>&1 && said "building the command"; } &
        waiting=$!
        compiled && failed=0 || failed=1
        kill $waiting 2>/dev/null
        wait $waiting 2>/dev/null
        return $failed
    fi
}
