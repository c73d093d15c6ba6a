# Sourced at the top of the checkout by ./run, ./test and ./build-lib.

# 'without_rattle NAME' is true if there is no 'rt' here, and then says for NAME what can be done without it.
without_rattle() {
    ! command -v rt >/dev/null || return 1
    echo "$1: Rattle's 'rt' is not on the PATH, so nothing can be proved or built here. Without it: 'make check' tries the library of dist/, 'make install PREFIX=..' installs it, and tools/site makes the reading site." >&2
}

# 'build NAME' has tools/built prove and build NAME, and answers its status: 1 if it is not proved, another if it can't be
# built. What stops the script meanwhile stops the proving too.
build() {
    local status=0
    command -v python3 >/dev/null || { echo "built: there is no python3 here" >&2; return 2; }
    tools/built "$1" </dev/null >/dev/null &
    build_of=$!
    trap 'stop_build 129' HUP
    trap 'stop_build 130' INT
    trap 'stop_build 143' TERM
    wait "$build_of" || status=$?
    trap - HUP INT TERM
    return "$status"
}
stop_build() { # STATUS
    trap '' HUP INT TERM
    kill "$build_of" 2>/dev/null || :
    wait "$build_of" || :
    exit "$1"
}
