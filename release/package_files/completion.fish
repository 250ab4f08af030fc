# Completion of psi's words for fish: its commands, network files, the rewards of a network, logs.

function __psi_is -d 'Whether so many words stand before this one, of which the second is one of these'
    set -l before (commandline -opc)
    test (count $before) -eq $argv[1]; or return 1
    test (count $argv) -eq 1; or contains -- $before[2] $argv[2..-1]
end

function __psi_rewards -d 'The names that stand in the tables of rewards of the network file'
    set -l before (commandline -opc)
    awk '
        /^[ \t]*\[/ { is_reward = /^[ \t]*\[\[[ \t]*reward[ \t]*\]\]/ }
        is_reward && /^[ \t]*name[ \t]*=/ { gsub(/^[^=]*=[ \t]*["\']|["\'].*$/, ""); print }
    ' $before[3] 2>/dev/null
end

complete -c psi -f
complete -c psi -n '__psi_is 1' -a check -d 'Print the network as it was read'
complete -c psi -n '__psi_is 1' -a sample -d 'Draw the state at time zero of a stream'
complete -c psi -n '__psi_is 1' -a report -d 'Draw many streams; print counts, sums and extremes'
complete -c psi -n '__psi_is 1' -a trial -d 'Draw four samples of a large network made of a number'
complete -c psi -n '__psi_is 1' -a couple -d 'Print the least horizon that is enough for a stream'
complete -c psi -n '__psi_is 1' -a reward -d 'Print the value of a reward as soon as it is known'
complete -c psi -n '__psi_is 1' -a exact -d 'Follow every state of a small network'
complete -c psi -n '__psi_is 1' -a closed -d 'Draw a closed network that holds so many customers'
complete -c psi -n '__psi_is 1' -a replay -d 'Check the log of a sample'
complete -c psi -n '__psi_is 1' -a help -d 'Print the help on a command'
complete -c psi -n '__psi_is 1' -s h -l help -d 'Print the help'
complete -c psi -n '__psi_is 1' -l version -d 'Print the version'
complete -c psi -n '__psi_is 2 help' -a 'check sample report trial couple reward exact closed replay'
complete -c psi -n '__psi_is 2 check sample report couple reward exact closed replay' \
    -a '(__fish_complete_suffix .toml)'
complete -c psi -n '__psi_is 3 replay' -a '(__fish_complete_suffix .log)'
complete -c psi -n '__psi_is 5 sample' -a log -d 'Write the log of the sample'
complete -c psi -n '__psi_is 5 reward' -a '(__psi_rewards)' -d Reward
