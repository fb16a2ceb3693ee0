# Completion of vervainfile's words for fish.

set -l verbs run explain map draw check help
set -l commands task kill save poll cancel repeat status alloc load put free extend mid show blocks claim release resize budge heap area make remove areas rma send ack transfer spool scrap read write
set -l none "not __fish_seen_subcommand_from $verbs"

complete -c vervainfile -f -n $none -a run -d "Run a script and print its replies"
complete -c vervainfile -f -n $none -a explain -d "Run a script and say what was wrong"
complete -c vervainfile -f -n $none -a map -d "Run a script and print a map of memory after each step"
complete -c vervainfile -f -n $none -a draw -d "Run a script and print a page of HTML with a figure after each step"
complete -c vervainfile -f -n $none -a check -d "Say whether the bytes of a file are a heap or a slot"
complete -c vervainfile -f -n $none -a help -d "Print help"
complete -c vervainfile -n $none -s V -l version -d "Print the version"
complete -c vervainfile -s h -l help -d "Print help"
complete -c vervainfile -x -n "__fish_seen_subcommand_from run explain map draw" -l pages -a "8 64 256 1024" -d "Pages of the desk"
complete -c vervainfile -n "__fish_seen_subcommand_from map draw" -l marked -d "Show marked steps alone"
complete -c vervainfile -n "__fish_seen_subcommand_from draw" -l lens -d "Draw areas through a lens"
complete -c vervainfile -n "__fish_seen_subcommand_from check" -l slot -d "Take the bytes for a slot, not for a heap"
complete -c vervainfile -f -n "__fish_seen_subcommand_from help" -a "$verbs $commands"
