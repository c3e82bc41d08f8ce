What `make install` puts beside the program is made from its help (tools/pages, which the gate asks for words that are missing), and helps
as it should. Which words are completed follows from the usage that `paklour help` and `paklour help COMMAND` write. The commands of outside/, which are
put there too, are tried there.

  $ cat > complete <<'end'
  > . "$TESTDIR/../share/bash-completion/completions/paklour"
  > for line in "$@"; do
  >     read -r -a COMP_WORDS <<< "paklour $line"
  >     [[ $line != *' ' && $line ]] || COMP_WORDS+=('')
  >     COMP_CWORD=$((${#COMP_WORDS[@]} - 1))
  >     _paklour
  >     echo "$line: ${COMPREPLY[*]}"
  > done
  > end
  $ touch my.toml other.txt
  $ mkdir folder
  $ bash complete r 'run --b' 'reduce --p' 'try --scenario ' 'try --plan 3 --s' 'help ex' 'report --brief m' 'run f' 'run o'
  r: run reduce report
  run --b: --brief
  reduce --p: --plan --progress
  try --scenario : 
  try --plan 3 --s: --scenario
  help ex: explain
  report --brief m: my.toml
  run f: folder
  run o: 

Every command and every option of a command is completed. Those of a command stand in its help in front of a value or of two blanks.

  $ for command in $(bash complete '' | sed 's/^: //;s/ -.*//'); do
  >     paklour help $command | grep -oE '^ +(-[a-z], )?--[a-z-]+' | grep -oE -e '--[a-z-]+' | sort > said
  >     [ $command = help ] || bash complete "$command --" | cut -d : -f 2 | tr ' ' '\n' | sed '/^$/d' | sort | diff said -
  > done
  $ paklour help | sed -n '/^Commands:/,/^$/s/^  \([a-z]*\) .*/\1/p' | sort > said
  $ bash complete '' | sed 's/^: //;s/ -.*//' | tr ' ' '\n' | sort | diff said -

The manual page has each line of each help, but for headings, and formats without a warning.

  $ ! command -v groff > where || groff -man -Tascii -ww -P-cbou "$TESTDIR/../share/man/man1/paklour.1" | tr -s ' \n' '  ' > text
  $ for command in help $(cat said); do
  >     paklour $([ $command = help ] || echo help) $command | tail -n +2 | sed 's/^Usage: //;s/^ *//' | grep -vE '^([A-Z][a-z ]*:)?$' | tr -s ' ' > lines
  >     [ ! -s where ] || while IFS= read -r line; do grep -qF -e "$line" text || echo "$command: $line"; done < lines
  > done

Where the other shells are installed, they read their own.

  $ ! command -v zsh > where || zsh -n "$TESTDIR/../share/zsh/site-functions/_paklour"
  $ ! command -v fish > where || fish --no-execute "$TESTDIR/../share/fish/vendor_completions.d/paklour.fish"

`make install` puts each into its folder, with links for the commands beside the program, of which each has a page and completions too, and
`make uninstall` takes just these away.

  $ unset MAKEFLAGS MFLAGS MAKELEVEL
  $ mkdir -p here/usr/bin here/usr/share/man/man1 && touch here/usr/bin/other here/usr/share/man/man1/other.1
  $ make -s -C "$TESTDIR/.." --no-print-directory install PROGRAM="$(command -v paklour)" DESTDIR="$PWD/here" PREFIX=/usr
  $ (cd here/usr && find . -type f -not -path '*/paklour/*' -not -name 'other*' -printf '%m %h\n' | sort | uniq -c | sed 's/^ *//')
  6 644 ./share/bash-completion/completions
  6 644 ./share/fish/vendor_completions.d
  6 644 ./share/man/man1
  6 644 ./share/zsh/site-functions
  1 755 ./bin
  $ (cd here/usr/bin && find . -type l -printf '%p %l\n' | sort && find . -xtype l)
  ./paklour-census ../lib/paklour/census
  ./paklour-faults ../lib/paklour/out/faults
  ./paklour-loop ../lib/paklour/loop
  ./paklour-new ../lib/paklour/new
  ./paklour-powercut ../lib/paklour/out/powercut
  $ ls here/usr/lib/paklour here/usr/share/doc/paklour
  here/usr/lib/paklour:
  census
  cut
  disks
  harness
  loop
  new
  out
  python
  
  here/usr/share/doc/paklour:
  CHANGELOG.md
  CONTRIBUTING.md
  README.md
  SECURITY.md
  docs
  $ here/usr/bin/paklour --version | sed 's/[0-9.]*$/N/'
  paklour N
  $ cmp here/usr/bin/paklour "$(command -v paklour)"
  $ make -s -C "$TESTDIR/.." --no-print-directory uninstall DESTDIR="$PWD/here" PREFIX=/usr
  $ (cd here && find . -not -type d | sort)
  ./usr/bin/other
  ./usr/share/man/man1/other.1
