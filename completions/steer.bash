# Completion of steer and its companion programs for bash: source this file, or link it into
# ~/.local/share/bash-completion/completions under the name of each program.

_steer() {
    local word=${COMP_WORDS[COMP_CWORD]} commands="hash replay run gen check place"
    COMPREPLY=()
    case $COMP_CWORD:${COMP_WORDS[1]} in
    1:*)
        mapfile -t COMPREPLY < <(compgen -W "$commands --help --version" -- "$word")
        ;;
    2:hash | 2:replay | 3:replay | 2:run | 3:run | 2:check | 3:check | 4:check | 2:place | 3:place)
        compopt -o filenames 2>/dev/null
        mapfile -t COMPREPLY < <(compgen -f -- "$word")
        ;;
    3:hash)
        mapfile -t COMPREPLY < <(compgen -W "1 2 3 4 5 6 7 8 9 10 11 12 13 14 15 16" -- "$word")
        ;;
    4:hash)
        mapfile -t COMPREPLY < <(compgen -W "27 63" -- "$word")
        ;;
    esac
}

# The options that a companion lists in its own help, and file names for every other word.
_steer_companion() {
    local word=${COMP_WORDS[COMP_CWORD]} options
    COMPREPLY=()
    case $word in
    -*)
        options=$("$1" --help 2>/dev/null |
            sed -n -e 's/^  \(-[a-z]\), \(--[-a-z0-9]*\).*/\1 \2/p' \
                -e 's/^  \(-[-a-z0-9]*\).*/\1/p')
        mapfile -t COMPREPLY < <(compgen -W "-h $options" -- "$word")
        ;;
    *)
        compopt -o filenames 2>/dev/null
        mapfile -t COMPREPLY < <(compgen -f -- "$word")
        ;;
    esac
}

complete -F _steer steer
complete -F _steer_companion steer-aim steer-apply steer-best steer-cap steer-compare steer-diff \
    steer-draw steer-lint steer-page steer-plan steer-remap steer-rows steer-rules steer-set \
    steer-snap steer-split steer-steps steer-top steer-try
