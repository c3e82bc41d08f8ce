The settings of a target stand in a table of its name: what file replacement replaces, which messages are delivered, who takes part in
which transactions. In a table the least unknown key is told first, and then one key after the other.

  $ told() {
  >     printf '%b\n' "$1" > settings.toml
  >     for command in run plans; do
  >         paklour $command settings.toml > out
  >         case $? in 0) echo accepted ;; 2) cat out ;; *) echo "another status" ;; esac
  >     done 2>&1 | uniq
  > }
  $ replace() { told 'target = "replace"\n[replace]\n'"$1"; }
  $ maildir() { told 'target = "maildir"\n[maildir]\n'"$1"; }
  $ commit() { told 'target = "commit"\n[commit]\n'"$1"; }

File replacement
----------------

  $ replace 'old = "old"\nreplacements = [["ne", "w"], []]'
  accepted
  $ replace 'old = ""\nreplacements = []'
  accepted
  $ replace 'x = 1\nnew = 3'
  settings: unknown key replace.new
  $ replace 'zeta = 1\nold = 3'
  settings: unknown key replace.zeta
  $ replace 'messages = []'
  settings: unknown key replace.messages
  $ replace 'replacements = []'
  settings: missing replace.old
  $ replace 'replacements = 3'
  settings: missing replace.old
  $ replace 'old = ""'
  settings: missing replace.replacements
  $ replace 'old = 3\nreplacements = [["ne", "w"]]'
  settings: wrong type replace.old
  $ replace 'old = 3'
  settings: wrong type replace.old
  $ replace 'old = ""\nreplacements = ["ne"]'
  settings: wrong type replace.replacements

The old contents have up to 65536 bytes. There are up to a thousand replacements, each of up to a thousand chunks, and a chunk has up to
4096 bytes: in the last one of these, 2048 letters of two bytes follow one of one byte.

  $ repeat() { for number in $(seq $1); do printf '%s' "$2"; done; }
  $ replace "old = \"$(repeat 65536 x)\"\nreplacements = []"
  accepted
  $ replace "old = \"$(repeat 65537 x)\"\nreplacements = []"
  settings: out of range replace.old
  $ replace "old = \"$(repeat 65537 x)\"\nreplacements = [[\"$(repeat 4097 x)\"]]"
  settings: out of range replace.old
  $ replace "old = \"\"\nreplacements = [[$(repeat 1000 '], [')]]"
  settings: out of range replace.replacements
  $ replace "old = \"\"\nreplacements = [[$(repeat 1001 '"x", ')]]"
  settings: out of range replace.replacements
  $ replace "old = \"\"\nreplacements = [[\"$(repeat 4096 x)\"]]"
  accepted
  $ replace "old = \"\"\nreplacements = [[\"$(repeat 4097 x)\"]]"
  settings: out of range replace.replacements
  $ replace "old = \"\"\nreplacements = [[\"x$(repeat 2048 é)\"]]"
  settings: out of range replace.replacements

Maildir delivery
----------------

  $ maildir 'messages = [["m"], []]'
  accepted
  $ maildir ''
  settings: missing maildir.messages
  $ maildir 'messages = 1'
  settings: wrong type maildir.messages
  $ maildir 'old = 1'
  settings: unknown key maildir.old

Two-phase commit
----------------

Each transaction has a wish for each participant, and there are up to a hundred transactions.

  $ commit 'participants = 2\ntransactions = [["yes", "no"]]'
  accepted
  $ commit 'participants = 8\ntransactions = []'
  accepted
  $ commit 'participants = 0\ntransactions = []'
  settings: out of range commit.participants
  $ commit 'participants = 9\ntransactions = []'
  settings: out of range commit.participants
  $ commit 'transactions = []'
  settings: missing commit.participants
  $ commit 'participants = 2'
  settings: missing commit.transactions
  $ commit 'participants = 2\ntransactions = [["yes"]]'
  settings: out of range commit.transactions
  $ commit 'participants = 1\ntransactions = [[]]'
  settings: out of range commit.transactions
  $ commit 'participants = 1\ntransactions = [["maybe"]]'
  settings: out of range commit.transactions
  $ commit 'participants = 2\ntransactions = [["yes", "maybe"], [1]]'
  settings: wrong type commit.transactions
  $ commit 'participants = 2\nvotes = 1'
  settings: unknown key commit.votes
  $ commit "participants = 1\ntransactions = [$(repeat 101 '["yes"], ')]"
  settings: out of range commit.transactions

The most that are taken
-----------------------

A thousand chunks of a replacement, a thousand replacements, and a hundred transactions.

From here on the program itself is needed.

  $ replace "old = \"\"\nreplacements = [[$(repeat 1000 '"x", ')]]"
  accepted
  $ replace "old = \"\"\nreplacements = [[$(repeat 999 '], [')]]"
  accepted
  $ commit "participants = 1\ntransactions = [$(repeat 100 '["yes"], ')]"
  accepted
