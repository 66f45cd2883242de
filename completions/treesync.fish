# fish completion for treesync: the commands that are built, then what their operands name.
# Written by completions/make from the program's help.
complete -c treesync -f
complete -c treesync -n __fish_use_subcommand -a replay -d 'SNAP LOG'
complete -c treesync -n __fish_use_subcommand -a canon -d 'LOG'
complete -c treesync -n __fish_use_subcommand -a conflicts -d 'LOG...'
complete -c treesync -n __fish_use_subcommand -a merge -d '[--prefs FILE] LOG...'
complete -c treesync -n __fish_use_subcommand -a transition -d '[--prefs FILE] N LOG...'
complete -c treesync -n __fish_use_subcommand -a steer -d 'SET LOG...'
complete -c treesync -n __fish_use_subcommand -a record -d 'FOLDER SCRIPT'
complete -c treesync -n __fish_use_subcommand -a seal -d 'FOLDER LOG'
complete -c treesync -n __fish_use_subcommand -a apply -d 'FOLDER SET'
complete -c treesync -n __fish_use_subcommand -a drill -d 'SEED LOGS STEPS'
complete -c treesync -n __fish_use_subcommand -a sync -d '[--prefs FILE] K FOLDER... LOG...'
complete -c treesync -n __fish_use_subcommand -a explain -d '[--prefs FILE] LOG...'
complete -c treesync -n __fish_use_subcommand -a undo -d 'SET'
complete -c treesync -n __fish_use_subcommand -a catchup -d 'SET...'
complete -c treesync -n __fish_use_subcommand -a rebase -d '[--prefs FILE] SIDE WORK SET...'
complete -c treesync -n __fish_use_subcommand -a help -d 'the commands'
complete -c treesync -n '__fish_seen_subcommand_from replay; and test (count (commandline -opc)) -ge 2 -a (count (commandline -opc)) -le 2' -F
complete -c treesync -n '__fish_seen_subcommand_from replay; and test (count (commandline -opc)) -ge 3 -a (count (commandline -opc)) -le 3' -F
complete -c treesync -n '__fish_seen_subcommand_from canon; and test (count (commandline -opc)) -ge 2 -a (count (commandline -opc)) -le 2' -F
complete -c treesync -n '__fish_seen_subcommand_from conflicts; and test (count (commandline -opc)) -ge 2' -F
complete -c treesync -n '__fish_seen_subcommand_from merge; and test (count (commandline -opc)) -eq 2' -l prefs -r -F
complete -c treesync -n '__fish_seen_subcommand_from merge; and test (count (commandline -opc)) -ge 2' -F
complete -c treesync -n '__fish_seen_subcommand_from transition; and test (count (commandline -opc)) -eq 2' -l prefs -r -F
complete -c treesync -n '__fish_seen_subcommand_from transition; and test (count (commandline -opc)) -ge 3' -F
complete -c treesync -n '__fish_seen_subcommand_from steer; and test (count (commandline -opc)) -ge 2 -a (count (commandline -opc)) -le 2' -F
complete -c treesync -n '__fish_seen_subcommand_from steer; and test (count (commandline -opc)) -ge 3' -F
complete -c treesync -n '__fish_seen_subcommand_from record; and test (count (commandline -opc)) -ge 2 -a (count (commandline -opc)) -le 2' -a '(__fish_complete_directories)'
complete -c treesync -n '__fish_seen_subcommand_from record; and test (count (commandline -opc)) -ge 3 -a (count (commandline -opc)) -le 3' -F
complete -c treesync -n '__fish_seen_subcommand_from seal; and test (count (commandline -opc)) -ge 2 -a (count (commandline -opc)) -le 2' -a '(__fish_complete_directories)'
complete -c treesync -n '__fish_seen_subcommand_from seal; and test (count (commandline -opc)) -ge 3 -a (count (commandline -opc)) -le 3' -F
complete -c treesync -n '__fish_seen_subcommand_from apply; and test (count (commandline -opc)) -ge 2 -a (count (commandline -opc)) -le 2' -a '(__fish_complete_directories)'
complete -c treesync -n '__fish_seen_subcommand_from apply; and test (count (commandline -opc)) -ge 3 -a (count (commandline -opc)) -le 3' -F
complete -c treesync -n '__fish_seen_subcommand_from sync; and test (count (commandline -opc)) -eq 2' -l prefs -r -F
complete -c treesync -n '__fish_seen_subcommand_from sync; and test (count (commandline -opc)) -ge 3' -F
complete -c treesync -n '__fish_seen_subcommand_from explain; and test (count (commandline -opc)) -eq 2' -l prefs -r -F
complete -c treesync -n '__fish_seen_subcommand_from explain; and test (count (commandline -opc)) -ge 2' -F
complete -c treesync -n '__fish_seen_subcommand_from undo; and test (count (commandline -opc)) -ge 2 -a (count (commandline -opc)) -le 2' -F
complete -c treesync -n '__fish_seen_subcommand_from catchup; and test (count (commandline -opc)) -ge 2' -F
complete -c treesync -n '__fish_seen_subcommand_from rebase; and test (count (commandline -opc)) -eq 2' -l prefs -r -F
complete -c treesync -n '__fish_seen_subcommand_from rebase; and test (count (commandline -opc)) -ge 2 -a (count (commandline -opc)) -le 4' -a 'tree next'
complete -c treesync -n '__fish_seen_subcommand_from rebase; and test (count (commandline -opc)) -ge 3 -a (count (commandline -opc)) -le 5' -F
complete -c treesync -n '__fish_seen_subcommand_from rebase; and test (count (commandline -opc)) -ge 4' -F
