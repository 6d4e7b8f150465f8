# Completion of wdyl's commands, options and files, for fish.

function __wdyl_is
    set -l words (commandline -opc)
    test (count $words) -gt 1; and contains -- $words[2] $argv
end

function __wdyl_begins
    test (count (commandline -opc)) -eq 1
end

complete -c wdyl -n __wdyl_begins -f -a merge -d 'make one module of a set'
complete -c wdyl -n __wdyl_begins -f -a run -d 'run a set'
complete -c wdyl -n __wdyl_begins -f -a exec -d 'run one module'
complete -c wdyl -n __wdyl_begins -f -a plan -d 'print how a set is placed and linked'
complete -c wdyl -n __wdyl_begins -f -a gen -d 'make and run a set of so many members'
complete -c wdyl -n __wdyl_begins -f -a trace -d 'run a set and write what the run was'
complete -c wdyl -n __wdyl_begins -f -a replay -d 'check that a trace is that of a run'
complete -c wdyl -n __wdyl_begins -f -a snap -d 'run start-up, and write one module that goes on from there'
complete -c wdyl -n __wdyl_begins -f -a board -d 'run several sets in turns'
complete -c wdyl -n '__wdyl_is gen' -f

set -l of_set merge run plan trace replay snap
complete -c wdyl -n "__wdyl_is $of_set" -l dl -r -d 'libraries that may be opened later, with commas'
complete -c wdyl -n "__wdyl_is $of_set" -l path -x -a '(__fish_complete_directories)' -d 'folders to look in, with colons'
complete -c wdyl -n "__wdyl_is $of_set" -l no-duplicates -d 'a name may be defined but once'
complete -c wdyl -n "__wdyl_is $of_set gen board" -l pages -x -d 'the most pages of memory'
complete -c wdyl -n "__wdyl_is $of_set board" -l stack -x -d 'the bytes of the stack'
complete -c wdyl -n '__wdyl_is run exec gen trace replay snap board' -l steps -x -d 'the most steps'
complete -c wdyl -n '__wdyl_is trace replay' -l one -d 'one module'
complete -c wdyl -n '__wdyl_is board' -l slice -x -d 'the most steps of a turn'
complete -c wdyl -n '__wdyl_is board' -l turns -x -d 'the most turns'
