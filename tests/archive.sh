# Sourced by each tests/NAME/run that links the archive, and by bench/run: finds or builds it. What is missing is said in a line, and
# counts as one failure.
root=$(cd "$(dirname "${BASH_SOURCE[0]}")/.." && pwd)
archive=$root/crates/tuvenikar/out/libtuvenikar.a

give_up() {
    echo "FAILED: $*"
    echo '0 passed, 1 failed'
    exit 1
}

need() { # COMMAND WHAT-FOR
    command -v "$1" >/dev/null 2>&1 || give_up "$1 is not on this machine's PATH: $2"
}

# An archive that is older than the code would answer for an engine that is no more.
if [ ! -f "$archive" ] || [ -n "$(find "$root"/crates/*/src -name '*.rt' -newer "$archive" -print -quit)" ]; then
    need rt "the Rattle kit, which builds the archive"
    (cd "$root/crates/tuvenikar" && rt lib) || give_up "'rt lib' in crates/tuvenikar ended with status $?"
    [ -f "$archive" ] || give_up "'rt lib' in crates/tuvenikar has not written ${archive#"$root"/}"
fi
