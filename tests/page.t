`page` runs a campaign, and writes a page of it: one HTML document, whole in itself. page.py reads it as a browser does: it has the brief report as text, the
very document of `--json`, and beside these the frame that tools/frame makes of viewer/.

  $ cat > small.toml <<'END'
  > target = "replace"
  > seed = 7
  > [replace]
  > old = "old"
  > replacements = [["ne", "w"]]
  > END
  $ sed '1a variant = "late_sync"' small.toml > late.toml
  $ sed '3a depth = 2' late.toml > grown.toml

It ends as the report does.

  $ for name in small late grown; do
  >     paklour run --brief $name.toml > $name.brief; paklour run --json $name.toml > $name.json; paklour page $name.toml > $name.html; echo $?
  >     python3 "$TESTDIR/page.py" $name.html $name.brief $name.json
  > done
  0
  paklour page FILE
  0 differences
  1
  paklour page FILE
  0 differences
  1
  paklour page FILE
  0 differences

A page whose text, document, elements or addresses are others is told.

  $ python3 "$TESTDIR/page.py" late.html small.brief grown.json
  another text than that of --brief
  another document than that of --json
  paklour page FILE
  2 differences
  $ sed 's|<summary>|<img src="http://localhost/"><summary>|' late.html > other.html
  $ python3 "$TESTDIR/page.py" other.html late.brief late.json
  16 elements and not the 15 of the frame
  an address
  paklour page FILE
  2 differences

Names and texts that look like parts of a page end nothing in it: neither the element that they stand in nor a comment begins or ends there.

  $ cat > odd.toml <<'END'
  > # </script><script>alert(1)</script><!-- <b>&amp; "both" 'quotes'</b> --> </pre></details>
  > target = "replace"
  > variant = "late_sync"
  > seed = 7
  > scenarios = ["replace::sync=return(</script><!--<&\"'\u0001>)"]
  > [replace]
  > old = "old"
  > replacements = [["ne", "w"]]
  > END
  $ paklour run --brief odd.toml > odd.brief 2> notes; paklour run --json odd.toml > odd.json 2> notes; paklour page odd.toml > odd.html
  settings: scenario 0: a control character: what follows it in the text may look like a line of its own
  [1]
  $ python3 "$TESTDIR/page.py" odd.html odd.brief odd.json
  paklour page FILE
  0 differences
  $ grep -c '</script>' odd.html
  2
