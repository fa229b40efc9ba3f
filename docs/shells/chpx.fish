# Completion of chpc and chpx for fish: put it into ~/.config/fish/completions. Made by bench/shells.
complete -c chpc -n __fish_use_subcommand -f
complete -c chpc -n 'test (count (commandline -opc)) -eq 1' -l unproved -d 'the answer by a program of which nothing is proved'
complete -c chpc -n 'test (count (commandline -opc)) -eq 1' -l help -d 'the commands'
complete -c chpc -n 'test (count (commandline -opc)) -eq 1' -l version -d 'which version this is'
complete -c chpc -n __fish_use_subcommand -a check -d 'whether the program is accepted, and how many nodes its circuit has'
complete -c chpc -n __fish_use_subcommand -a compile -d 'the rule file of the program'
complete -c chpc -n '__fish_seen_subcommand_from compile' -l reset
complete -c chpc -n '__fish_seen_subcommand_from compile' -l buffer -x
complete -c chpc -n __fish_use_subcommand -a expand -d 'the parts of its circuit'
complete -c chpc -n __fish_use_subcommand -a run -d 'the report of rounds of the program, without a circuit'
complete -c chpc -n '__fish_seen_subcommand_from run' -l rounds -x
complete -c chpc -n '__fish_seen_subcommand_from run' -l buffer -x
complete -c chpc -n __fish_use_subcommand -a simulate -d 'the report of a run of the rule file\'s net; with 5 and 10 too'
complete -c chpc -n '__fish_seen_subcommand_from simulate' -l order -x -a 'lowest oldest newest random'
complete -c chpc -n '__fish_seen_subcommand_from simulate' -l seed -x
complete -c chpc -n '__fish_seen_subcommand_from simulate' -l steps -x
complete -c chpc -n '__fish_seen_subcommand_from simulate' -l power -x -a 'low high'
complete -c chpc -n '__fish_seen_subcommand_from simulate' -l against -r
complete -c chpc -n '__fish_seen_subcommand_from simulate' -l delays -r
complete -c chpc -n __fish_use_subcommand -a bench -d 'the report of a run against a device that reacts to what it takes; with 5 too'
complete -c chpc -n '__fish_seen_subcommand_from bench' -l peer -x -a 'ramp echo'
complete -c chpc -n '__fish_seen_subcommand_from bench' -l order -x -a 'lowest oldest newest random'
complete -c chpc -n '__fish_seen_subcommand_from bench' -l seed -x
complete -c chpc -n '__fish_seen_subcommand_from bench' -l steps -x
complete -c chpc -n __fish_use_subcommand -a waves -d 'the wave of a timed run, or why its last move came; with 5 too'
complete -c chpc -n '__fish_seen_subcommand_from waves' -l steps -x
complete -c chpc -n '__fish_seen_subcommand_from waves' -l delays -r
complete -c chpc -n '__fish_seen_subcommand_from waves' -l causes
complete -c chpc -n __fish_use_subcommand -a unwave -d 'the changes of a wave'
complete -c chpc -n __fish_use_subcommand -a migrate -d 'this rule file with a reset node'
complete -c chpc -n __fish_use_subcommand -a grow -d 'the text of a generated program, or a summary of it'
complete -c chpc -n '__fish_seen_subcommand_from grow' -l sum
complete -c chpx -n __fish_use_subcommand -f
complete -c chpx -n 'test (count (commandline -opc)) -eq 1' -l unproved -d 'the answer by a program of which nothing is proved'
complete -c chpx -n 'test (count (commandline -opc)) -eq 1' -l help -d 'the commands'
complete -c chpx -n 'test (count (commandline -opc)) -eq 1' -l version -d 'which version this is'
complete -c chpx -n __fish_use_subcommand -a check -d 'whether the program is accepted, and how many nodes its circuit has'
complete -c chpx -n '__fish_seen_subcommand_from check' -l json
complete -c chpx -n __fish_use_subcommand -a compile -d 'the rule file of the program'
complete -c chpx -n '__fish_seen_subcommand_from compile' -l reset
complete -c chpx -n '__fish_seen_subcommand_from compile' -l buffer -x
complete -c chpx -n __fish_use_subcommand -a expand -d 'the parts of its circuit'
complete -c chpx -n __fish_use_subcommand -a run -d 'the report of rounds of the program, without a circuit'
complete -c chpx -n '__fish_seen_subcommand_from run' -l rounds -x
complete -c chpx -n '__fish_seen_subcommand_from run' -l buffer -x
complete -c chpx -n __fish_use_subcommand -a simulate -d 'the report of a run of the rule file\'s net; with 5 and 10 too'
complete -c chpx -n '__fish_seen_subcommand_from simulate' -l order -x -a 'lowest oldest newest random'
complete -c chpx -n '__fish_seen_subcommand_from simulate' -l seed -x
complete -c chpx -n '__fish_seen_subcommand_from simulate' -l steps -x
complete -c chpx -n '__fish_seen_subcommand_from simulate' -l power -x -a 'low high'
complete -c chpx -n '__fish_seen_subcommand_from simulate' -l against -r
complete -c chpx -n '__fish_seen_subcommand_from simulate' -l delays -r
complete -c chpx -n __fish_use_subcommand -a bench -d 'the report of a run against a device that reacts to what it takes; with 5 too'
complete -c chpx -n '__fish_seen_subcommand_from bench' -l peer -x -a 'ramp echo'
complete -c chpx -n '__fish_seen_subcommand_from bench' -l order -x -a 'lowest oldest newest random'
complete -c chpx -n '__fish_seen_subcommand_from bench' -l seed -x
complete -c chpx -n '__fish_seen_subcommand_from bench' -l steps -x
complete -c chpx -n '__fish_seen_subcommand_from bench' -l device -r -a 'source sink echo fifo memory'
complete -c chpx -n '__fish_seen_subcommand_from bench' -l image -r
complete -c chpx -n '__fish_seen_subcommand_from bench' -l keep-script -r
complete -c chpx -n __fish_use_subcommand -a waves -d 'the wave of a timed run, or why its last move came; with 5 too'
complete -c chpx -n '__fish_seen_subcommand_from waves' -l steps -x
complete -c chpx -n '__fish_seen_subcommand_from waves' -l delays -r
complete -c chpx -n '__fish_seen_subcommand_from waves' -l causes
complete -c chpx -n __fish_use_subcommand -a unwave -d 'the changes of a wave'
complete -c chpx -n __fish_use_subcommand -a migrate -d 'this rule file with a reset node'
complete -c chpx -n __fish_use_subcommand -a grow -d 'the text of a generated program, or a summary of it'
complete -c chpx -n '__fish_seen_subcommand_from grow' -l sum
complete -c chpx -n __fish_use_subcommand -a why -d 'what is under way where a run stops, and what each waits for'
complete -c chpx -n '__fish_seen_subcommand_from why' -l delays -r
complete -c chpx -n '__fish_seen_subcommand_from why' -l steps -x
complete -c chpx -n '__fish_seen_subcommand_from why' -l program -r
complete -c chpx -n '__fish_seen_subcommand_from why' -l buffer -x
complete -c chpx -n '__fish_seen_subcommand_from why' -l until -x
complete -c chpx -n '__fish_seen_subcommand_from why' -l all
complete -c chpx -n '__fish_seen_subcommand_from why' -l hex
complete -c chpx -n '__fish_seen_subcommand_from why' -l json
complete -c chpx -n __fish_use_subcommand -a hunt -d 'looks for hazards in a rule file by many orders and delays'
complete -c chpx -n '__fish_seen_subcommand_from hunt' -l seeds -x
complete -c chpx -n '__fish_seen_subcommand_from hunt' -l mixed -x
complete -c chpx -n '__fish_seen_subcommand_from hunt' -l steps -x
complete -c chpx -n '__fish_seen_subcommand_from hunt' -l to -r
complete -c chpx -n __fish_use_subcommand -a view -d 'writes a wave with channels and variables as vectors; causes; latency and cycle time'
complete -c chpx -n '__fish_seen_subcommand_from view' -l delays -r
complete -c chpx -n '__fish_seen_subcommand_from view' -l steps -x
complete -c chpx -n '__fish_seen_subcommand_from view' -l until -x
complete -c chpx -n '__fish_seen_subcommand_from view' -l hex
complete -c chpx -n '__fish_seen_subcommand_from view' -l to -r
complete -c chpx -n '__fish_seen_subcommand_from view' -l causes-of -x
complete -c chpx -n '__fish_seen_subcommand_from view' -l latency -x
complete -c chpx -n __fish_use_subcommand -a events -d 'what passed in a run, in one order over all channels'
complete -c chpx -n '__fish_seen_subcommand_from events' -l delays -r
complete -c chpx -n '__fish_seen_subcommand_from events' -l steps -x
complete -c chpx -n '__fish_seen_subcommand_from events' -l program -r
complete -c chpx -n '__fish_seen_subcommand_from events' -l buffer -x
complete -c chpx -n '__fish_seen_subcommand_from events' -l until -x
complete -c chpx -n '__fish_seen_subcommand_from events' -l order -x -a 'lowest oldest newest random'
complete -c chpx -n '__fish_seen_subcommand_from events' -l seed -x
complete -c chpx -n '__fish_seen_subcommand_from events' -l channel -x
complete -c chpx -n '__fish_seen_subcommand_from events' -l hex
complete -c chpx -n '__fish_seen_subcommand_from events' -l json
complete -c chpx -n __fish_use_subcommand -a cover -d 'what of a program never happened in some runs'
complete -c chpx -n '__fish_seen_subcommand_from cover' -l steps -x
complete -c chpx -n '__fish_seen_subcommand_from cover' -l buffer -x
complete -c chpx -n __fish_use_subcommand -a profile -d 'where the time of a run goes, by statement, by turn of a loop and by channel'
complete -c chpx -n '__fish_seen_subcommand_from profile' -l delays -r
complete -c chpx -n '__fish_seen_subcommand_from profile' -l steps -x
complete -c chpx -n '__fish_seen_subcommand_from profile' -l program -r
complete -c chpx -n '__fish_seen_subcommand_from profile' -l buffer -x
complete -c chpx -n '__fish_seen_subcommand_from profile' -l to -x
complete -c chpx -n '__fish_seen_subcommand_from profile' -l from -x
complete -c chpx -n '__fish_seen_subcommand_from profile' -l most -x
complete -c chpx -n '__fish_seen_subcommand_from profile' -l json
complete -c chpx -n __fish_use_subcommand -a pace -d 'how long n rounds take at most, as is proved, and how long rounds of a run took'
complete -c chpx -n '__fish_seen_subcommand_from pace' -l rounds -x
complete -c chpx -n __fish_use_subcommand -a buffered -d 'the text of a program with a one-place buffer on a channel'
complete -c chpx -n __fish_use_subcommand -a stat -d 'how large a circuit is, by part and by kind of part'
complete -c chpx -n '__fish_seen_subcommand_from stat' -l buffer -x
complete -c chpx -n '__fish_seen_subcommand_from stat' -l json
complete -c chpx -n __fish_use_subcommand -a tree -d 'draws the parts of a circuit'
complete -c chpx -n '__fish_seen_subcommand_from tree' -l buffer -x
complete -c chpx -n __fish_use_subcommand -a lint -d 'what a program that is accepted may still be doing wrong'
complete -c chpx -n '__fish_seen_subcommand_from lint' -l json
complete -c chpx -n __fish_use_subcommand -a sort -d 'brings a rule file\'s lines into the one order'
complete -c chpx -n '__fish_seen_subcommand_from sort' -l program -r
complete -c chpx -n __fish_use_subcommand -a test -d 'checks programs by test files: what has to pass under a script'
complete -c chpx -n '__fish_seen_subcommand_from test' -l json
complete -c chpx -n '__fish_seen_subcommand_from test' -l keep -r
complete -c chpx -n __fish_use_subcommand -a link -d 'makes one program of several that talk by channels of one name'
complete -c chpx -n '__fish_seen_subcommand_from link' -l line
