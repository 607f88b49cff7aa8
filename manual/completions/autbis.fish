# Completions of autbis and its scripts for fish. manual/try compares them with what --help lists.

# Lists systems if another one is wanted: min takes one, as do some scripts, and cmp two, as autbis-same. One whose name begins with - has to follow --.
function __autbis_systems
    set -l words (commandline -opc)
    set -l ended no
    set -l options '-*'
    set -l others
    switch $words[1]
        case '*autbis-same'
            set others cmp
        case '*autbis-*'
            set others min
    end
    set words $words[2..-1]
    while set -q words[1]
        if test $ended = no; and contains -- $words[1] --relation --hide -o --first --map
            set words $words[2..-1]
        else if test $ended = no; and test $words[1] = --
            set ended yes
            set options ''
        else if test $ended = yes; or not string match -q -- '-*' $words[1]
            set others $others $words[1]
        end
        set words $words[2..-1]
    end
    test (count $others) -eq 1; or test (count $others) -eq 2 -a $others[1] = cmp; or return
    __fish_complete_suffix .aut | string match -v -- $options
end

complete -c autbis -n __fish_use_subcommand -f
complete -c autbis -n __fish_use_subcommand -a min -d 'write the equivalent system with the fewest states'
complete -c autbis -n __fish_use_subcommand -a cmp -d 'say whether two systems are equivalent'
complete -c autbis -n __fish_use_subcommand -a help -d 'print help for a command'
complete -c autbis -n __fish_use_subcommand -s h -l help -d 'print help'
complete -c autbis -n __fish_use_subcommand -s V -l version -d 'print the version'
complete -c autbis -n '__fish_seen_subcommand_from min cmp' -l relation -x -a 'strong branching' -d 'select the bisimulation'
complete -c autbis -n '__fish_seen_subcommand_from min cmp' -l hide -r -F -d 'make the labels of this list internal first'
complete -c autbis -n '__fish_seen_subcommand_from min' -l stats -d 'print the counts of the run on standard error'
complete -c autbis -n '__fish_seen_subcommand_from min cmp' -s h -l help -d 'print help'
complete -c autbis -n '__fish_seen_subcommand_from min cmp' -f -k -a '(__autbis_systems)'
complete -c autbis -n '__fish_seen_subcommand_from help' -f -a 'min cmp help'

for script in draw hide-list info ready regression same
    complete -c autbis-$script -f
    complete -c autbis-$script -s h -l help -d 'print help'
end
for script in draw info same
    complete -c autbis-$script -l hide -r -F -d 'make the labels of this list internal first'
    complete -c autbis-$script -k -a '(__autbis_systems)'
end
complete -c autbis-ready -k -a '(__autbis_systems)'
complete -c autbis-ready -l several -d 'split lines with several transitions'
complete -c autbis-ready -l names -d 'number states that have names'
complete -c autbis-ready -l from-one -d 'subtract 1 from each state'
complete -c autbis-ready -l counts -d 'replace wrong counts in the header'
complete -c autbis-ready -l first -x -d 'add a header with this first state'
complete -c autbis-ready -l tau-to-i -d 'rename tau to i'
complete -c autbis-ready -l i-to-tau -d 'rename i to tau'
complete -c autbis-ready -l map -r -F -d 'replace labels by names that this file lists'
complete -c autbis-regression -a '(__fish_complete_directories)'
complete -c autbis-same -l relation -x -a 'strong branching' -d 'select the bisimulation'
complete -c autbis-draw -s o -r -F -d 'write this picture'
complete -c autbis-info -l json -d 'write JSON'
complete -c autbis-hide-list -l if-any -d 'accept what matches nothing'
complete -c autbis-hide-list -l all-but -d 'hide the labels that match no pattern'
complete -c autbis-hide-list -l cadp -r -F -d 'hide as this hiding file of CADP says'
complete -c autbis-hide-list -l mcrl2 -x -d 'hide actions of these names'
complete -c autbis-hide-list -l in -r -F -d 'take the labels of these systems'
