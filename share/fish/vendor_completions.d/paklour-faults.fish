# Completes the words of paklour-faults in fish. tools/pages makes this file from the command's help.
complete -c paklour-faults -a '(__fish_complete_command)'
complete -c paklour-faults -l order -x -a 'settled next' -d 'lets one thread at a time make a call under the root'
complete -c paklour-faults -l pin -d 'gives the same random bytes in each run, and addresses that aren\'t random'
complete -c paklour-faults -l sync -d 'lets each sync that succeeds sync the disk too, for a disk whose power can be cut'
complete -c paklour-faults -s h -l help -d 'prints this help'
