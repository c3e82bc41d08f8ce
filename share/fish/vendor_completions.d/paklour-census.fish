# Completes the words of paklour-census in fish. tools/pages makes this file from the command's help.
complete -c paklour-census -l points -d 'the points for settings with a depth, whose answers have hits'
complete -c paklour-census -l kinds -d 'the same, and after it a table of faults'
complete -c paklour-census -l hits -d 'the hits of any run, as an answer has them in its third field'
complete -c paklour-census -s h -l help -d 'prints this help'
