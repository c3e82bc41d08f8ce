# Completes the words of paklour-powercut in fish. tools/pages makes this file from the command's help.
complete -c paklour-powercut -n __fish_use_subcommand -f -a begin -d 'makes RUN, the folder of a run. What is under ROOT now is on the disk'
complete -c paklour-powercut -n __fish_use_subcommand -f -a expect -d 'says that the script itself changes what has these names under ROOT. A folder\'s name stands for all that is in it'
complete -c paklour-powercut -n __fish_use_subcommand -f -a pending -d 'lists the changes that are pending now: number and words'
complete -c paklour-powercut -n __fish_use_subcommand -f -a cut -d 'empties ROOT, and writes there the files that a power cut leaves'
complete -c paklour-powercut -n __fish_use_subcommand -f -a recover -d 'does the same. What it writes is on the disk, and the run goes on'
complete -c paklour-powercut -s h -l help -d 'prints this help'
