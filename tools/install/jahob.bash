# Completion of `jahob` and the tools beside it for bash.

_jahob_words() {
    COMPREPLY=($(compgen -W "$1" -- "$word"))
}

_jahob_files() {
    compopt -o filenames 2> /dev/null
    COMPREPLY=($(compgen -f -X "!*.$1" -- "$word") $(compgen -d -- "$word"))
}

_jahob() {
    local word="${COMP_WORDS[COMP_CWORD]}" before="${COMP_WORDS[COMP_CWORD - 1]}" tool="${COMP_WORDS[0]##*/}"
    case "$before" in
        --color) _jahob_words 'always never auto'; return ;;
        --workers | --rounds | --leaves | --steps) return ;;
    esac
    case "$tool:${COMP_WORDS[1]}:$word" in
        jahob-lsp:*) _jahob_words '--help --version' ;;
        jahob-show:*:-*) _jahob_words '--short --json --html --color --rounds --leaves --workers --help --version' ;;
        jahob-why:*:-*) _jahob_words '--heap --help --version' ;;
        jahob:verify:-*) _jahob_words '--workers --rounds --leaves' ;;
        jahob:run:-*) _jahob_words '--steps' ;;
        jahob:*)
            case "$COMP_CWORD:${COMP_WORDS[1]}" in
                1:*) _jahob_words 'verify run gen' ;;
                2:verify | 2:run) _jahob_files j ;;
                3:run) _jahob_methods "${COMP_WORDS[2]}" ;;
                4:run) _jahob_files heap ;;
            esac ;;
        jahob-why:*) [ "$COMP_CWORD" = 2 ] && _jahob_methods "${COMP_WORDS[1]}" || _jahob_files j ;;
        *) _jahob_files j ;;
    esac
}

# The methods of a file.
_jahob_methods() {
    _jahob_words "$(jahob verify "$1" 2> /dev/null | sed -n 's/^\([^ ]*\.[^ ]*\) [0-9].*/\1/p' | sort -u)"
}

complete -F _jahob jahob jahob-show jahob-why jahob-lsp
