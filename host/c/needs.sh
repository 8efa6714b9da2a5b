# What the scripts need, for `source`: a script stops with a clear line where something is missing and can't be had.
# The script that sources this sets `script` to its name.

# Stops with a reason.
stop() {
    echo "$script: $1" >&2
    exit 1
}

# A command, or else Debian's packages that bring it: need COMMAND PACKAGE..
need() {
    local command=$1 log
    shift
    command -v "$command" >/dev/null && return
    [ "$(id -u)" -eq 0 ] || stop "no $command; install Debian's $*, or run this as root"
    command -v apt-get >/dev/null || stop "no $command, and no apt-get to install Debian's $*"
    log=$(mktemp)
    { apt-get install -y "$@" || { apt-get update && apt-get install -y "$@"; }; } >"$log" 2>&1 ||
        { tail -20 "$log" >&2; stop "Debian's $* can't be installed"; }
    rm "$log"
    command -v "$command" >/dev/null || stop "Debian's $* has brought no $command"
}

# The library, built from the repository's root where it is missing or older than its sources: the archives of the
# crates with calls for C, joined.
library=target/staticlib/libhost.a
library_crates='host_tables host_checks host_labels host_stores host_lists'
need_library() {
    local crate log=target/log/staticlib.log
    # What rt leaves in a crate's out/ is no source.
    [ -f "$library" ] && [ -z "$(find crates.txt crates/*/src crates/*/specs crates/*/proofs -newer "$library" -print -quit)" ] &&
        return
    command -v rt >/dev/null || stop "$library is missing or old, and there is no rt to build it"
    need ar binutils
    mkdir -p target/log "${library%/*}"
    rm -f "$library"
    for crate in $library_crates; do
        (cd "crates/$crate" && rt lib) >"$log" 2>&1 || { tail -20 "$log" >&2; stop "rt lib has failed in crates/$crate"; }
    done
    {
        echo "create $library"
        for crate in $library_crates; do echo "addlib crates/$crate/out/lib$crate.a"; done
        echo save
    } | ar -M >"$log" 2>&1 || { cat "$log" >&2; stop "$library can't be joined"; }
}
