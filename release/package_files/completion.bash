# Completion of psi's words for bash: its commands, network files, the rewards of a network, logs.

_psi_commands="check sample report trial couple reward exact closed replay"

_psi_rewards() {
    # The names that stand in the tables of rewards of a network file.
    awk '
        /^[ \t]*\[/ { is_reward = /^[ \t]*\[\[[ \t]*reward[ \t]*\]\]/ }
        is_reward && /^[ \t]*name[ \t]*=/ { gsub(/^[^=]*=[ \t]*["'\'']|["'\''].*$/, ""); print }
    ' "$1" 2>/dev/null
}

_psi_files() {
    # Folders, and the files whose names end so; a file of any name where none does.
    local IFS=$'\n'
    compopt -o filenames 2>/dev/null
    COMPREPLY=($(compgen -d -- "$2") $(compgen -f -X "!*.$1" -- "$2"))
    [ "${#COMPREPLY[@]}" -gt 0 ] || COMPREPLY=($(compgen -f -- "$2"))
}

_psi() {
    local word=${COMP_WORDS[COMP_CWORD]} command=${COMP_WORDS[1]} net=${COMP_WORDS[2]}
    COMPREPLY=()
    case $COMP_CWORD:$command in
    1:-*) COMPREPLY=($(compgen -W "--help --version" -- "$word")) ;;
    1:*) COMPREPLY=($(compgen -W "$_psi_commands help" -- "$word")) ;;
    2:help) COMPREPLY=($(compgen -W "$_psi_commands" -- "$word")) ;;
    2:trial | *:-* | *:help) ;;
    2:*) _psi_files toml "$word" ;;
    3:replay) _psi_files log "$word" ;;
    5:sample) COMPREPLY=($(compgen -W log -- "$word")) ;;
    5:reward) COMPREPLY=($(compgen -W "$(_psi_rewards "$net")" -- "$word")) ;;
    esac
}

complete -F _psi psi
