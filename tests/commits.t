What a two-phase commit asks, step by step, and what it comes to: the table of docs/TARGETS.md, by examples. steps.py shows the steps; one
that fails has a mark of exclamation.

  $ commit() {
  >     variant=$1 transactions=$2
  >     shift 2
  >     printf 'target = "commit"\nvariant = "%s"\n[commit]\nparticipants = 2\ntransactions = %s\n' $variant "$transactions" > settings.toml
  >     python3 "$TESTDIR/steps.py" settings.toml "$@" | fold -s -w 120 | sed 's/ $//'
  > }

Two participants wish to commit, and nothing fails: each variant asks the same.

  $ commit sound '[["yes", "yes"]]'
  pass: send_prepare force_prepare send_vote send_prepare force_prepare send_vote force_commit send_outcome force_outcome
  send_ack send_outcome force_outcome send_ack
  $ commit lazy_prepare '[["yes", "yes"]]'
  pass: send_prepare force_prepare send_vote send_prepare force_prepare send_vote force_commit send_outcome force_outcome
  send_ack send_outcome force_outcome send_ack
  $ commit early_end '[["yes", "yes"]]'
  pass: send_prepare force_prepare send_vote send_prepare force_prepare send_vote force_commit send_outcome force_outcome
  send_ack send_outcome force_outcome send_ack
  $ commit two_tries '[["yes", "yes"]]'
  pass: send_prepare force_prepare send_vote send_prepare force_prepare send_vote force_commit send_outcome force_outcome
  send_ack send_outcome force_outcome send_ack

A no aborts, and so does a vote that is lost. Who has voted yes is told; an abort is neither forced nor acknowledged.

  $ commit sound '[["yes", "no"]]'
  pass: send_prepare force_prepare send_vote send_prepare send_vote send_outcome
  $ commit sound '[["no", "no"]]'
  pass: send_prepare send_vote send_prepare send_vote
  $ commit sound '[["yes", "yes"]]' send_vote:1
  pass: send_prepare force_prepare send_vote! send_prepare force_prepare send_vote send_outcome

Without a commit record there is no commit; the variant that tries twice tells one all the same.

  $ commit sound '[["yes", "yes"]]' force_commit:1 send_outcome:1
  pass: send_prepare force_prepare send_vote send_prepare force_prepare send_vote force_commit! send_outcome! send_outcome
  $ commit two_tries '[["yes", "yes"]]' force_commit:1
  pass: send_prepare force_prepare send_vote send_prepare force_prepare send_vote force_commit! force_commit send_outcome
  force_outcome send_ack send_outcome force_outcome send_ack
  $ commit two_tries '[["yes", "yes"]]' force_commit:1 force_commit:2 send_outcome:1
  split: send_prepare force_prepare send_vote send_prepare force_prepare send_vote force_commit! force_commit!
  send_outcome! send_outcome force_outcome send_ack

A participant misses the outcome, and inquires. Where the end record says that all is over it is told to abort; and where both miss it, both
are.

  $ commit sound '[["yes", "yes"]]' send_outcome:1
  pass: send_prepare force_prepare send_vote send_prepare force_prepare send_vote force_commit send_outcome! send_outcome
  force_outcome send_ack
  $ commit early_end '[["yes", "yes"]]' send_outcome:1
  split: send_prepare force_prepare send_vote send_prepare force_prepare send_vote force_commit send_outcome!
  send_outcome force_outcome send_ack
  $ commit early_end '[["yes", "yes"]]' send_outcome:1 send_outcome:2
  lost: send_prepare force_prepare send_vote send_prepare force_prepare send_vote force_commit send_outcome! send_outcome!

Transactions follow one another, and there may be none.

  $ commit sound '[["yes", "yes"], ["yes", "yes"]]' > /dev/null
  $ paklour try --scenario '' settings.toml | head -n 2
  verdict pass
  asked 26
  $ commit sound '[]'
  pass:
