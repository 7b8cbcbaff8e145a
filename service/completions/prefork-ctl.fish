# Fish completion for prefork-ctl. To use it: put this file into ~/.config/fish/completions.

# Words that take another one are followed by it once.
set -l signals HUP USR1 USR2 WINCH TTIN TTOU QUIT INT TERM
set -l words status top tick try plan explore certify go back reload upgrade log-rotate stop $signals
complete -c prefork-ctl -f
complete -c prefork-ctl -n "not __fish_seen_subcommand_from $words" -a "$words"
complete -c prefork-ctl -n "__fish_seen_subcommand_from plan explore; and not __fish_seen_subcommand_from $signals" -a "$signals"
complete -c prefork-ctl -n "__fish_seen_subcommand_from try; and not __fish_seen_subcommand_from HUP" -a HUP
complete -c prefork-ctl -n "__fish_seen_subcommand_from USR2 upgrade; and not __fish_seen_subcommand_from attended" -a attended
complete -c prefork-ctl -l folder -r -a "(__fish_complete_directories)" -d "the folder of the service"
complete -c prefork-ctl -l json -d "print as JSON"
complete -c prefork-ctl -l ask -r -a "(__fish_complete_command)" -d "the command that answers questions"
complete -c prefork-ctl -l no-ask -d "answer questions by hand"
complete -c prefork-ctl -l after -x -d "how long after a question it runs"
complete -c prefork-ctl -l ask-within -x -d "how long it may take"
complete -c prefork-ctl -l wait -x -a "serves changes short stopped" -d "ask until the service is in this state"
complete -c prefork-ctl -l seconds -x -d "for how long at most"
complete -c prefork-ctl -l events -x -a "1 2" -d "at most a number of events in a run"
complete -c prefork-ctl -l forbid -x -a degraded -d "what must not be"
complete -c prefork-ctl -l require -x -a done -d "what must be"
complete -c prefork-ctl -l least -x -d "the fewest ready workers"
complete -c prefork-ctl -l records -r -d "where the records are"
complete -c prefork-ctl -l prefork -r -d "the program of the master"
complete -c prefork-ctl -l version -d "print the version"
complete -c prefork-ctl -l help -d "print the help"
