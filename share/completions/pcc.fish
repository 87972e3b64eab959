# Completes the arguments of pcc in fish. tools/manual made this file.

# Succeeds if the word at the cursor is value $argv[2], counted from 0, of the command $argv[1].
function __pcc_at
    set -l words (commandline -opc)
    test (count $words) -ge 2; and test "$words[2]" = $argv[1]; or return 1
    set -l values 0
    set -l is_value
    set -l is_number
    for word in $words[3..]
        if test -n "$is_number"
            set is_number
        else if test -n "$is_value"
            set values (math $values + 1)
        else if test "$word" = --
            set is_value yes
        else if contains -- "$word" --bound --steps
            set is_number yes
        else if not string match -q -- '--*' "$word"
            set values (math $values + 1)
        end
    end
    test -z "$is_number"; and test $values -eq $argv[2]
end

# Prints the files that the word at the cursor may name, if it begins with `@`.
function __pcc_policy_file
    set -l word (commandline -ct)
    string match -q -- '@*' "$word"; or return
    for path in (__fish_complete_path (string sub -s 2 -- "$word"))
        echo "@$path"
    end
end

complete -c pcc -f
complete -c pcc -n __fish_use_subcommand -a asm -d 'assemble the source IN and write a container without a proof to OUT'
complete -c pcc -n '__pcc_at asm 0' -a 'filter tag table' -d policy
complete -c pcc -n '__pcc_at asm 1' -F
complete -c pcc -n '__pcc_at asm 2' -F
complete -c pcc -n '__fish_seen_subcommand_from asm' -l v2 -d 'version 2 of the container, with the instructions of profile 2'
complete -c pcc -n '__fish_seen_subcommand_from asm' -l bound -x -d 'version 3 of the container, with a bound on its steps'
complete -c pcc -n __fish_use_subcommand -a prove -d 'prove the container IN and write it with the proof to OUT'
complete -c pcc -n '__pcc_at prove 0' -a 'filter tag table' -d policy
complete -c pcc -n '__pcc_at prove 1' -F
complete -c pcc -n '__pcc_at prove 2' -F
complete -c pcc -n __fish_use_subcommand -a check -d 'check a container under a policy: accepted, or the first reason why not'
complete -c pcc -n '__pcc_at check 0' -a 'filter tag table' -d policy
complete -c pcc -n '__pcc_at check 0' -a '(__pcc_policy_file)'
complete -c pcc -n '__pcc_at check 1' -F
complete -c pcc -n __fish_use_subcommand -a run -d 'check a container, then run it on packets with no test of its accesses'
complete -c pcc -n '__pcc_at run 0' -a 'filter tag table' -d policy
complete -c pcc -n '__pcc_at run 1' -F
complete -c pcc -n '__pcc_at run 2' -F
complete -c pcc -n '__fish_seen_subcommand_from run' -l steps -x -d 'the most steps of a packet, 1000000 if not given'
complete -c pcc -n __fish_use_subcommand -a ref -d 'run a container on packets and test each access; needs no proof'
complete -c pcc -n '__pcc_at ref 0' -a 'filter tag table' -d policy
complete -c pcc -n '__pcc_at ref 1' -F
complete -c pcc -n '__pcc_at ref 2' -F
complete -c pcc -n '__fish_seen_subcommand_from ref' -l steps -x -d 'the most steps of a packet, 1000000 if not given'
complete -c pcc -n __fish_use_subcommand -a demo -d 'make a filter of N loads, prove it, check it and run it; N is 1 to 400'
complete -c pcc -n __fish_use_subcommand -a upgrade -d 'write the container IN of version 1 as version 2 to OUT'
complete -c pcc -n '__pcc_at upgrade 0' -F
complete -c pcc -n '__pcc_at upgrade 1' -F
complete -c pcc -n __fish_use_subcommand -a host -d 'run several agents by turns, as the script says'
complete -c pcc -n '__pcc_at host 0' -F
complete -c pcc -n __fish_use_subcommand -a bpf -d 'compile the classic BPF program IN to a container with its proof'
complete -c pcc -n '__pcc_at bpf 0' -F
complete -c pcc -n '__pcc_at bpf 1' -F
