# Completion of simgrid_replay for fish: a file in ~/.config/fish/completions or /usr/share/fish/vendor_completions.d.
set -l commands replay run churn help
complete -c simgrid_replay -f
complete -c simgrid_replay -n "not __fish_seen_subcommand_from $commands" -a replay -d 'Replays a script'
complete -c simgrid_replay -n "not __fish_seen_subcommand_from $commands" -a run -d 'Runs masters and workers'
complete -c simgrid_replay -n "not __fish_seen_subcommand_from $commands" -a churn -d 'Runs a random workload from a seed'
complete -c simgrid_replay -n "not __fish_seen_subcommand_from $commands" -a help -d 'Prints help'
complete -c simgrid_replay -n "not __fish_seen_subcommand_from $commands" -s V -l version -d 'Prints the version'
complete -c simgrid_replay -s h -l help -d 'Prints help'
complete -c simgrid_replay -n '__fish_seen_subcommand_from replay run churn' -l nthreads -x -a '1 2 4 8 16 32 64' -d 'Worker threads'
complete -c simgrid_replay -n '__fish_seen_subcommand_from replay run churn' -l budget -x -d 'Number of events after which the run is stopped'
complete -c simgrid_replay -n '__fish_seen_subcommand_from replay run' -l quiet -d 'Prints only how the run ended'
complete -c simgrid_replay -n '__fish_seen_subcommand_from replay run' -F
complete -c simgrid_replay -n '__fish_seen_subcommand_from help' -a 'replay run churn'
