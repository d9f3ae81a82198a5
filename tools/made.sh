# Builds what is missing or older than its sources. Read in by ./molzaken and the tests, at the root of the repository.
# shellcheck shell=sh
counter=crates/counter/out/counter
library=crates/screen/out/libscreen.a
explainer=target/explain/release/explain
desk=target/desk/release/desk

stale() { # FILE SOURCE..
    made=$1
    shift
    [ ! -f "$made" ] || [ -n "$(find "$@" -name out -prune -o -type f ! -path '*/must-fail/*' -newer "$made" -print | head -n 1)" ]
}

need() { # COMMAND KIT
    command -v "$1" >/dev/null && return
    echo "the command $1 is missing: $2 must be installed and on the PATH (README.md, \"Set up\")" >&2
    return 1
}

# What was found to be up to date is marked so, and not looked at again.
mark() { # FILE
    [ -f "$1" ] && touch "$1"
}

make_counter() {
    stale "$counter" crates crates.txt || return 0
    need rt 'the Rattle kit' || return
    echo "building $counter and proving what it stands on: about four minutes the first time" >&2
    # This runs the program too, here on an empty sheet.
    (cd crates/counter && rt run </dev/null) && mark "$counter"
}

make_library() {
    stale "$library" crates crates.txt || return 0
    need rt 'the Rattle kit' || return
    echo "building $library and proving what it stands on: some minutes if nothing was proved before" >&2
    (cd crates/screen && rt lib) && mark "$library"
}

make_explainer() {
    stale "$explainer" explain || return 0
    need cargo 'Rust' || return
    echo "building $explainer: some seconds" >&2
    CARGO_TARGET_DIR=target/explain cargo build --release --offline --quiet --manifest-path explain/Cargo.toml && mark "$explainer"
}

make_desk() {
    make_library || return
    stale "$desk" desk library "$library" || return 0
    need cargo 'Rust' || return
    echo "building $desk: some seconds" >&2
    CARGO_TARGET_DIR=target/desk cargo build --release --offline --quiet --manifest-path desk/Cargo.toml && mark "$desk"
}
