#!/usr/bin/env bash
# One entry to what is done in this repository. `./do` alone tells the verbs.
set -u
here=$PWD
cd "$(dirname "$0")" || exit 1
program=crates/alto/out/alto

usage() {
    cat <<'END'
usage: ./do VERB ..

  start [PACK]          builds the program, formats PACK (pack) if it isn't there, and opens a shell on it
  build                 proves and builds the program: crates/alto/out/alto
  install [PREFIX]      copies the program, tools, manual pages and completion to PREFIX (~/.local)
  check CRATE           proves a crate, over what its last check left; with the flags of `rt check`
  only CRATE FUNCTION   proves one function, module or type of it
  test CRATE            proves and runs its tests
  edits CRATE ..        tries its must-fail edits
  above CRATE           tells which crates are proved anew with it, and the minutes that they take
  fmt [CRATE ..]        lays out the files of these crates, or of all
  docs [--write]        compares the documents with the code; --write first makes anew what is made of it
  find WORD ..          finds laws, functions, types and definitions that have all these words
  laws CRATE            prints its laws by module, each with its sentence
  demo                  replays the transcripts of demo/
  gate                  all that a change has to pass
END
}

# Runs a command of rt in the folder of a crate.
in_crate() {
    local crate=$1
    shift
    [ -d "crates/$crate/src" ] || { echo "do: there is no crate $crate" >&2; exit 1; }
    cd "crates/$crate" && exec rt "$@"
}

# Builds the program, and opens a shell on a pack, whose path is told from the folder where this was typed.
start() {
    python3 check/building.py >/dev/null || exit 1
    local pack=$1
    [ "$here" = "$PWD" ] || [ "${pack#/}" != "$pack" ] || pack=$here/$pack
    if [ ! -e "$pack" ]; then
        "$program" --cylinders 203 "$pack" format 1 || exit
    fi
    exec tools/altosh --program "$program" "$pack"
}

# Copies a file, with its mode, and tells it.
put() {
    install -D -m "$1" "$2" "$3" && echo "$3" || exit 1
}

# Links a name to another file, and tells it.
tie() {
    mkdir -p "$(dirname "$2")" && ln -sfn "$1" "$2" && echo "$2" || exit 1
}

# Copies what users need to a folder, as /usr/local.
install_to() {
    [ -x "$program" ] || { echo "do: the program isn't built: ./do build, which tells how long it takes" >&2; exit 1; }
    local prefix=$1 script file
    [ "${prefix#/}" != "$prefix" ] || prefix=$here/$prefix
    put 755 "$program" "$prefix/bin/alto"
    for file in tools/packtools/*.py tools/packtools/*.html; do
        put 644 "$file" "$prefix/lib/alto/packtools/$(basename "$file")"
    done
    put 644 tools/completion.bash "$prefix/share/bash-completion/completions/alto"
    put 644 docs/alto.1 "$prefix/share/man/man1/alto.1"
    for script in altosh altocp packcheck packdump packdiff packmap packview; do
        put 755 "tools/$script" "$prefix/lib/alto/$script"
        tie "../lib/alto/$script" "$prefix/bin/$script"
        tie alto "$prefix/share/bash-completion/completions/$script"
        put 644 "docs/$script.1" "$prefix/share/man/man1/$script.1"
    done
}

fmt() {
    [ $# -gt 0 ] || set -- $(ls crates)
    for crate in "$@"; do
        (in_crate "$crate" fmt) || exit 1
    done
}

verb=${1:-help}
shift
case "$verb $#" in
    "start 0") start pack ;;
    "start 1") start "$1" ;;
    "build 0") exec python3 check/building.py ;;
    "install 0") install_to "$HOME/.local" ;;
    "install 1") install_to "$1" ;;
    "check 0" | "only "[01] | "test 0" | "edits 0" | "laws 0") usage >&2; exit 1 ;;
    "check "*) in_crate "$1" check "${@:2}" ;;
    "only "*) in_crate "$1" check --only "${@:2}" ;;
    "test "*) in_crate "$1" test "${@:2}" ;;
    "edits "*) exec rt must-fail "$@" ;;
    "above 1") exec python3 check/above.py "$1" ;;
    "fmt "*) fmt "$@" ;;
    "docs 0" | "docs 1") exec python3 check/documents.py "$@" ;;
    "find 0") usage >&2; exit 1 ;;
    "find "*) exec python3 check/names.py "$@" ;;
    "laws 1") exec python3 check/laws.py "$1" ;;
    "demo 0") exec python3 check/demos.py ;;
    "gate 0") exec .ci/run ;;
    "help 0" | "--help 0" | "-h 0") usage ;;
    *) usage >&2; exit 1 ;;
esac
