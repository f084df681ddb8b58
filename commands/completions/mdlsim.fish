# Completions of mdlsim for fish.
complete -c mdlsim -f
complete -c mdlsim -n __fish_use_subcommand -a lock -d 'Play a script of one lock'
complete -c mdlsim -n __fish_use_subcommand -a matrix -d 'Print which modes conflict'
complete -c mdlsim -n __fish_use_subcommand -a replay -d 'Play a script of statements'
complete -c mdlsim -n __fish_use_subcommand -a explain -d 'Say what a line locks'
complete -c mdlsim -n __fish_use_subcommand -a run -d 'Play a script of statements with a thread for each session'
complete -c mdlsim -n __fish_use_subcommand -a help -d 'Print help'
complete -c mdlsim -n __fish_use_subcommand -l version -d 'Print the version'
complete -c mdlsim -l help -d 'Print help'
complete -c mdlsim -n '__fish_seen_subcommand_from lock' -l scoped -d 'Play a scoped lock'
complete -c mdlsim -n '__fish_seen_subcommand_from run' -l patience -x -d 'How often a waiting statement looks again'
complete -c mdlsim -n '__fish_seen_subcommand_from run' -l cache -x -d 'How many definitions each session keeps'
complete -c mdlsim -n '__fish_seen_subcommand_from help' -a 'lock matrix replay explain run'
