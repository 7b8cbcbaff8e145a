# Fish completion for prefork-checkworker. To use it: put this file into ~/.config/fish/completions.

complete -c prefork-checkworker -a "(__fish_complete_subcommand)"
complete -c prefork-checkworker -l path -x -d "a page that it serves"
complete -c prefork-checkworker -l slow -x -d "a page that takes a second or more"
complete -c prefork-checkworker -l one -d "tell it one address at a time"
complete -c prefork-checkworker -l preload -d "it is a preloader"
complete -c prefork-checkworker -l patience -x -d "how long it may take to load, and to finish"
complete -c prefork-checkworker -l version -d "show the version"
complete -c prefork-checkworker -l help -d "show the help"
