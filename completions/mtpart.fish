# Completion of mtpart in fish: its commands, and then what each word is: the file of a table, a folder, a number or a query.

# Whether the command is one of the words given after the number, and that many words stand before the one at the cursor.
function __mtpart_at
    set -l words (commandline -opc)
    test (count $words) = $argv[1]; and contains -- $words[2] $argv[2..-1]
end

# Whether folders of merge stand at the cursor: OUT and each IN.
function __mtpart_merges
    set -l words (commandline -opc)
    test (count $words) -ge 4; and test $words[2] = merge
end

complete -c mtpart -f
complete -c mtpart -n '__fish_is_first_arg' -a write -d 'make a part of lines on standard input'
complete -c mtpart -n '__fish_is_first_arg' -a check -d 'say whether a folder is a part of a table'
complete -c mtpart -n '__fish_is_first_arg' -a rows -d 'print the rows of a part'
complete -c mtpart -n '__fish_is_first_arg' -a show -d 'print what is in a part'
complete -c mtpart -n '__fish_is_first_arg' -a select -d 'print the answer of a query over a part'
complete -c mtpart -n '__fish_is_first_arg' -a merge -d 'make one part of several'
complete -c mtpart -n '__fish_is_first_arg' -a trial -d 'try the whole way in memory'
complete -c mtpart -n '__mtpart_at 2 write check rows show select merge' -F
complete -c mtpart -n '__mtpart_at 3 write check rows show select' -a '(__fish_complete_directories)'
complete -c mtpart -n '__mtpart_at 4 write check' -a '1 2 4 8 16 32 64'
complete -c mtpart -n '__mtpart_at 3 merge' -a '1 2 4 8 16 32 64'
complete -c mtpart -n '__mtpart_merges' -a '(__fish_complete_directories)'
