# Completion for ./catalogue in bash: `source tools/completion.bash`. Commands and options are those that the pages in tools/help name.
_catalogue() {
    local word=${COMP_WORDS[COMP_CWORD]} before=${COMP_WORDS[COMP_CWORD - 1]} top pages
    top=$(dirname "$(readlink -f "$(command -v "${COMP_WORDS[0]}")")")
    pages=$top/tools/help
    local commands
    commands=$(cd "$pages" 2>/dev/null && printf '%s\n' *.txt | sed -n '/^catalogue.txt$/d; s/\.txt$//p')
    case $before in
        --store | --journal | --log | --tokens) mapfile -t COMPREPLY < <(compgen -f -- "$word") && return ;;
        --orphans) mapfile -t COMPREPLY < <(compgen -W 'keep delete' -- "$word") && return ;;
    esac
    if [ "$COMP_CWORD" -eq 1 ]; then
        mapfile -t COMPREPLY < <(compgen -W "$(printf '%s\n' "$commands" | grep -v '^prove$') help --help --version --prove" -- "$word")
    elif [ "${COMP_WORDS[1]}" = help ]; then
        mapfile -t COMPREPLY < <(compgen -W "$commands" -- "$word")
    elif [ "${COMP_WORDS[1]}" = serve ] && [ "$COMP_CWORD" -eq 2 ]; then
        COMPREPLY=("127.0.0.1:8391")
    elif [ -f "$pages/${COMP_WORDS[1]}.txt" ]; then
        mapfile -t COMPREPLY < <(compgen -W "$(sed -n 's/^  \(--[a-z-]*\) .*/\1/p' "$pages/${COMP_WORDS[1]}.txt") --help" -- "$word")
    fi
}
complete -o nosort -F _catalogue catalogue
