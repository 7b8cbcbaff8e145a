# Fish completion for prefork-load. To use it: put this file into ~/.config/fish/completions.

complete -c prefork-load -f
complete -c prefork-load -l clients -x -d "how many ask at a time"
complete -c prefork-load -l rate -x -d "requests a second of all clients together"
complete -c prefork-load -l seconds -x -d "when to end"
complete -c prefork-load -l patience -x -d "for an answer"
complete -c prefork-load -l path -x -d "what is asked for"
complete -c prefork-load -l again -d "ask again where a kept connection was closed"
complete -c prefork-load -l json -d "one line of JSON"
complete -c prefork-load -l version -d "show the version"
complete -c prefork-load -l help -d "show the help"
