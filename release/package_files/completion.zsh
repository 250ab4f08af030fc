#compdef psi
# Completion of psi's words for zsh: its commands, network files, the rewards of a network, logs.

_psi_rewards() {
    # The names that stand in the tables of rewards of a network file.
    local -a names
    names=(${(f)"$(awk '
        /^[ \t]*\[/ { is_reward = /^[ \t]*\[\[[ \t]*reward[ \t]*\]\]/ }
        is_reward && /^[ \t]*name[ \t]*=/ { gsub(/^[^=]*=[ \t]*["'\'']|["'\''].*$/, ""); print }
    ' "$1" 2>/dev/null)"})
    _describe reward names
}

_psi() {
    local -a commands
    commands=(
        'check:print the network as it was read'
        'sample:draw the state at time zero of a stream'
        'report:draw many streams, and print their counts, sums and extremes'
        'trial:draw four samples of a large network that is made of a number'
        'couple:print the least horizon that is enough for a stream'
        'reward:print the value of a reward as soon as it is known'
        'exact:follow every state of a small network'
        'closed:draw a closed network that holds so many customers'
        'replay:check the log of a sample'
    )
    case $CURRENT:$words[2] in
    2:-*) compadd -- --help --version ;;
    2:*)
        commands+=('help:print the help on a command')
        _describe command commands
        ;;
    3:help) _describe command commands ;;
    *:(help|-*)) _message 'no more words' ;;
    3:trial) _message 'a number, 0 to 65535' ;;
    3:*) _files -g '*.toml' ;;
    4:check | *:trial) _message 'no more words' ;;
    4:replay) _files -g '*.log' ;;
    4:*) _message 'the seed, 0 to 2^64 - 1' ;;
    5:report) _message 'the first stream, 0 to 2^64 - 1' ;;
    5:(sample|couple|reward|exact|closed)) _message 'the stream, 0 to 2^64 - 1' ;;
    6:sample) compadd log ;;
    6:report) _message 'how many streams, 1 to 65536' ;;
    6:reward) _psi_rewards "${(Q)words[3]}" ;;
    6:exact) _message 'the power of two of steps, 0 to 12' ;;
    6:closed) _message 'how many customers there are, 0 to 256' ;;
    *) _message 'no more words' ;;
    esac
}

_psi "$@"
