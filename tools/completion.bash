# Completion of bash for alto and the scripts beside it: options, words, and files. A name on a pack isn't completed; tools/altosh does that.

_alto() {
    local word=${COMP_WORDS[COMP_CWORD]} before=${COMP_WORDS[COMP_CWORD - 1]} options words=
    case "${COMP_WORDS[0]##*/}" in
        alto) options="--cylinders --second --help" words="boot show scavenge format prepare" ;;
        altosh) options="--second -c -k --keep-going --program --help" ;;
        altocp) options="--second -f --force -r --recursive -p --dates --names -n --look --verify --program --help" ;;
        packcheck) options="--second -q --quiet --json --program --help" ;;
        packdump) options="--second --json --help" words="@root @descriptor @free" ;;
        packdiff) options="--seconds --bytes --json --help" ;;
        packmap) options="--second -o --output --text --help" ;;
        packview) options="--second -o --output --film --program --help" ;;
    esac
    case "$before" in
        --second | --seconds | --program | -o | --output) words= options= ;;
        --film) COMPREPLY=($(compgen -W "boot show scavenge" -- "$word")) && return ;;
    esac
    [ "$COMP_CWORD" -gt 1 ] || words=
    case "$word" in
        -*) COMPREPLY=($(compgen -W "$options" -- "$word")) ;;
        *) COMPREPLY=($(compgen -W "$words" -- "$word") $(compgen -f -- "$word")) ;;
    esac
}
complete -o filenames -F _alto alto altosh altocp packcheck packdump packdiff packmap packview
