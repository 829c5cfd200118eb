# A check, and what it says where it fails. Read by run.
# shellcheck shell=sh

tried=0
failed=0
try() { # WHAT COMMAND..: the command succeeds; WHAT is what is wrong where it does not
    what=$1
    shift
    tried=$((tried + 1))
    "$@" >"$tmp/said" 2>&1 && return
    failed=$((failed + 1))
    echo "packaging: for $machine: $what"
    sed 's/^/    /' "$tmp/said" | head -n 20
    return 1
}
not() { ! "$@"; }
is() { [ "$1" = "$2" ] || { printf '%s\nis not\n%s\n' "$1" "$2"; return 1; }; } # GOT WANTED
has() { command -v "$1" >/dev/null || { echo "packaging: no command $1 was found, so $2 not tried"; return 1; }; } # TOOL WHAT-IS
