# Completion of jackd for fish. Under another name the file has that name, as sagbufe-jackd.fish.

set -l name (basename (status filename) .fish)

# Whether a play is completed behind one of these numbers of its words, without --strict and --no-sync.
function __sagbufe_jackd_play_at
    set -l words (commandline -opc | string match -rv -- '^--(strict|no-sync)$')
    test (count $words) -ge 2; and test $words[2] = play; and contains (math (count $words) - 2) $argv
end

# Whether a graph is completed behind one of these numbers of its words.
function __sagbufe_jackd_graph_at
    set -l words (commandline -opc)
    test (count $words) -ge 2; and test $words[2] = graph; and contains (math (count $words) - 2) $argv
end

# Whether a check is completed behind one of these numbers of its words.
function __sagbufe_jackd_check_at
    set -l words (commandline -opc)
    test (count $words) -ge 2; and test $words[2] = check; and contains (math (count $words) - 2) $argv
end

# Whether no word stands behind the program's name.
function __sagbufe_jackd_first
    test (count (commandline -opc)) -eq 1
end

complete -c $name -f
complete -c $name -n __sagbufe_jackd_first -a play -d 'Plays a session, and prints its report'
complete -c $name -n __sagbufe_jackd_first -a rehearse -d 'Plays a large session made from a number, and sums it up'
complete -c $name -n __sagbufe_jackd_first -a graph -d 'Prints the graph that a cycle of a play used'
complete -c $name -n __sagbufe_jackd_first -a check -d 'Checks whether a report explains the files of a play'
complete -c $name -n __sagbufe_jackd_first -l help -d 'Print how the program is called'
complete -c $name -n __sagbufe_jackd_first -l version -d 'Print the version'
# SCRIPT, CAPTURE and PLAYBACK, and then at most four pairs of --record and PATH, and at most four of --disk and PATH.
complete -c $name -n '__sagbufe_jackd_play_at 0 1 2 4 6 8 10 12 14 16 18' -F
complete -c $name -n '__sagbufe_jackd_play_at 3 5 7 9; and not contains -- --disk (commandline -opc)' -l record -d 'The file of the next recorder'
complete -c $name -n '__sagbufe_jackd_play_at 3 5 7 9 11 13 15 17; and test (count (string match -- --disk (commandline -opc))) -lt 4' -l disk -d 'The file that the next disk plays'
# The options of a play stand anywhere, but not for a PATH.
complete -c $name -n '__sagbufe_jackd_play_at 0 1 2 3 5 7 9 11 13 15 17 19; and not contains -- --strict (commandline -opc)' -l strict -d 'Exit code 9 where something was refused, lost or late'
complete -c $name -n '__sagbufe_jackd_play_at 0 1 2 3 5 7 9 11 13 15 17 19; and not contains -- --no-sync (commandline -opc)' -l no-sync -d 'Do not wait until the files are on their medium'
# SCRIPT, CAPTURE, REPORT and PLAYBACK, and then at most four pairs of --record and PATH.
complete -c $name -n '__sagbufe_jackd_check_at 0 1 2 3 5 7 9 11' -F
complete -c $name -n '__sagbufe_jackd_check_at 4 6 8 10' -l record -d 'The file of the next recorder'
# SCRIPT and REPORT, and behind CYCLE the option.
complete -c $name -n '__sagbufe_jackd_graph_at 0 1' -F
complete -c $name -n '__sagbufe_jackd_graph_at 3' -l dot -d 'Prints the graph for graphviz'
