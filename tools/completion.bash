# Completes the words of a68 in bash: source this file.
_a68() {
    local word=${COMP_WORDS[COMP_CWORD]} before=${COMP_WORDS[COMP_CWORD - 1]} verb=${COMP_WORDS[1]}
    local here names
    if [ "$COMP_CWORD" -eq 1 ]; then
        COMPREPLY=($(compgen -W "run check code make trace replay races list lint explain prove help --version" -- "$word"))
        return
    fi
    case $verb:$before in
    *:--fuel | *:--workers | make:make) return ;;
    *:--input)
        COMPREPLY=($(compgen -f -- "$word"))
        return
        ;;
    explain:*)
        here=$(dirname "$(readlink -f "$(command -v "${COMP_WORDS[0]}")")")
        names=$(sed -n 's/^### \([A-Za-z0-9]*\): .*/\1/p' "$here/docs/language/refusals.md" 2>/dev/null)
        COMPREPLY=($(compgen -W "$names" -- "$word"))
        return
        ;;
    esac
    case $verb:$word in
    run:-*) COMPREPLY=($(compgen -W "--fuel --workers --names --input" -- "$word")) ;;
    trace:-* | races:-*) COMPREPLY=($(compgen -W "--fuel --workers" -- "$word")) ;;
    make:-*) COMPREPLY=($(compgen -W "--workers" -- "$word")) ;;
    replay:*) COMPREPLY=($(compgen -f -- "$word")) ;;
    *) COMPREPLY=($(compgen -f -X '!*.a68' -- "$word") $(compgen -d -- "$word")) ;;
    esac
}
complete -o filenames -F _a68 a68 ./a68
