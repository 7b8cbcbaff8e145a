# Fish completion for prefork: subcommands, options, files and control words. To use it: put this file into
# ~/.config/fish/completions.

set -l commands enact plan explore certify check supervise adopt child explain
set -l signals HUP QUIT INT TERM USR1 USR2 "USR2 attended" WINCH TTIN TTOU
complete -c prefork -f
complete -c prefork -l help -d "show the help"
complete -c prefork -n "not __fish_seen_subcommand_from $commands" -l version -d "show the version"
complete -c prefork -n "not __fish_seen_subcommand_from $commands" -a enact -d "carry out words on a modelled kernel"
complete -c prefork -n "not __fish_seen_subcommand_from $commands" -a plan -d "print what a word would do"
complete -c prefork -n "not __fish_seen_subcommand_from $commands" -a explore -d "tell how a word can end"
complete -c prefork -n "not __fish_seen_subcommand_from $commands" -a certify -d "compare blocks with plans and model"
complete -c prefork -n "not __fish_seen_subcommand_from $commands" -a check -d "check configurations"
complete -c prefork -n "not __fish_seen_subcommand_from $commands" -a supervise -d "be a master of real workers"
complete -c prefork -n "not __fish_seen_subcommand_from $commands" -a adopt -d "be the new master of an upgrade"
complete -c prefork -n "not __fish_seen_subcommand_from $commands" -a child -d "be a worker that serves nothing"
complete -c prefork -n "not __fish_seen_subcommand_from $commands" -a explain -d "explain a code, a call or a word"
complete -c prefork -n "__fish_seen_subcommand_from enact plan explore certify supervise" -l from -r -F -d "the configuration that runs"
complete -c prefork -n "__fish_seen_subcommand_from enact plan explore certify supervise" -l to -r -F -d "the configuration of the next reload"
complete -c prefork -n "__fish_seen_subcommand_from enact plan explore certify" -l workers -x -d "how many workers without a configuration"
complete -c prefork -n "__fish_seen_subcommand_from enact plan explore certify" -l bare -d "start without workers"
complete -c prefork -n "__fish_seen_subcommand_from enact plan explore certify check" -l json -d "print as JSON"
complete -c prefork -n "__fish_seen_subcommand_from enact plan explore certify supervise" -l why -d "say more of what is wrong"
complete -c prefork -n "__fish_seen_subcommand_from enact explore certify" -l held -x -d "an address that others hold"
complete -c prefork -n "__fish_seen_subcommand_from enact" -l state -d "print the state"
complete -c prefork -n "__fish_seen_subcommand_from plan" -l dot -d "print a graph for dot"
complete -c prefork -n "__fish_seen_subcommand_from explore" -l events -x -a "1 2" -d "at most this number of events in a run"
complete -c prefork -n "__fish_seen_subcommand_from explore" -l turns -x -d "who acts when in an upgrade"
complete -c prefork -n "__fish_seen_subcommand_from explore" -l limit -x -d "at most this number of runs"
complete -c prefork -n "__fish_seen_subcommand_from explore" -l forbid -x -a degraded -d "what must not be"
complete -c prefork -n "__fish_seen_subcommand_from explore" -l require -x -a done -d "what must be"
complete -c prefork -n "__fish_seen_subcommand_from explore" -l least -x -d "the fewest ready workers"
complete -c prefork -n "__fish_seen_subcommand_from explore" -l list -d "list the runs"
complete -c prefork -n "__fish_seen_subcommand_from explore" -l progress -d "say how far it is"
complete -c prefork -n "__fish_seen_subcommand_from explore" -l deaths -d "let masters die"
complete -c prefork -n "__fish_seen_subcommand_from certify" -l life -d "say what holds of the whole life"
complete -c prefork -n "__fish_seen_subcommand_from supervise adopt" -l program -r -F -d "the program of workers and of the next master"
complete -c prefork -n "__fish_seen_subcommand_from supervise adopt" -l answer-within -x -d "kill a child that owes an answer for longer"
complete -c prefork -n "__fish_seen_subcommand_from supervise adopt" -l ready-within -x -d "kill a child that is not ready for longer"
complete -c prefork -n "__fish_seen_subcommand_from supervise" -l verbose -d "log the outcome of each word"
# One word is all that plan and explore take.
for word in $signals
    complete -c prefork -n "__fish_seen_subcommand_from enact" -a "'$word'"
    complete -c prefork -n "__fish_seen_subcommand_from plan explore; and not __fish_seen_subcommand_from '"(string join "' '" $signals)"'" -a "'$word'"
end
complete -c prefork -n "__fish_seen_subcommand_from check" -F
# (the program itself knows the codes)
complete -c prefork -n "__fish_seen_subcommand_from explain" -a "(prefork explain 2>/dev/null | string split -f 1 ' ')"
