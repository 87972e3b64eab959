# Completes the arguments of pcc_view in fish. tools/manual made this file.

# Succeeds if the word at the cursor is value $argv[2], counted from 0, of the command $argv[1].
function __pcc_view_at
    set -l words (commandline -opc)
    test (count $words) -ge 2; and test "$words[2]" = $argv[1]; or return 1
    set -l values 0
    set -l is_value
    set -l is_number
    for word in $words[3..]
        if test -n "$is_number"
            set is_number
        else if test -n "$is_value"
            set values (math $values + 1)
        else if test "$word" = --
            set is_value yes
        else if contains -- "$word" --steps --bound
            set is_number yes
        else if not string match -q -- '--*' "$word"
            set values (math $values + 1)
        end
    end
    test -z "$is_number"; and test $values -eq $argv[2]
end

# Prints the files that the word at the cursor may name, if it begins with `@`.
function __pcc_view_policy_file
    set -l word (commandline -ct)
    string match -q -- '@*' "$word"; or return
    for path in (__fish_complete_path (string sub -s 2 -- "$word"))
        echo "@$path"
    end
end

complete -c pcc_view -f
complete -c pcc_view -n __fish_use_subcommand -a list -d 'the container as a source, beside the lines of SOURCE'
complete -c pcc_view -n '__pcc_view_at list 0' -F
complete -c pcc_view -n '__pcc_view_at list 1' -F
complete -c pcc_view -n __fish_use_subcommand -a goals -d 'the condition'\''s goals, with what is known, and which are easy'
complete -c pcc_view -n '__pcc_view_at goals 0' -a 'filter tag table' -d policy
complete -c pcc_view -n '__pcc_view_at goals 0' -a '(__pcc_view_policy_file)'
complete -c pcc_view -n '__pcc_view_at goals 1' -F
complete -c pcc_view -n '__pcc_view_at goals 2' -F
complete -c pcc_view -n '__fish_seen_subcommand_from goals' -l only-missing -d 'only goals that are not easy'
complete -c pcc_view -n '__fish_seen_subcommand_from goals' -l all -d 'all that is missing of each goal that is not easy'
complete -c pcc_view -n __fish_use_subcommand -a packet -d 'the run on packet K, step by step'
complete -c pcc_view -n '__pcc_view_at packet 0' -a 'filter tag table' -d policy
complete -c pcc_view -n '__pcc_view_at packet 0' -a '(__pcc_view_policy_file)'
complete -c pcc_view -n '__pcc_view_at packet 1' -F
complete -c pcc_view -n '__pcc_view_at packet 2' -F
complete -c pcc_view -n '__fish_seen_subcommand_from packet' -l steps -x -d 'the most steps of a packet, 1000000 if not given'
complete -c pcc_view -n __fish_use_subcommand -a formula -d 'where a formula is wrong, or the two of a policy'\''s file'
complete -c pcc_view -n '__pcc_view_at formula 0' -F
complete -c pcc_view -n '__fish_seen_subcommand_from formula' -l v2 -d 'version 2 of the container, with the instructions of profile 2'
complete -c pcc_view -n '__fish_seen_subcommand_from formula' -l bound -d 'version 3 of the container, with a bound on its steps'
complete -c pcc_view -n '__fish_seen_subcommand_from formula' -l policy -d 'the file is a policy'\''s, with two formulas'
complete -c pcc_view -n __fish_use_subcommand -a source -d 'where a source is wrong, as pcc asm reads it'
complete -c pcc_view -n '__pcc_view_at source 0' -F
complete -c pcc_view -n '__fish_seen_subcommand_from source' -l v2 -d 'version 2 of the container, with the instructions of profile 2'
complete -c pcc_view -n '__fish_seen_subcommand_from source' -l bound -x -d 'version 3 of the container, with a bound on its steps'
complete -c pcc_view -n __fish_use_subcommand -l help -d 'print the forms of the commands, with examples'
complete -c pcc_view -n __fish_use_subcommand -l version -d 'print the version, and which containers it reads'
