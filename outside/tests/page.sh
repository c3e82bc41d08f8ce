# The script of docs/OUTSIDE.md, by the page's own text, over a program that doesn't look at its sync. Sourced by `test`.
mkdir -p "$here/page"
awk '/^```/ { if (found) exit; block = ""; next } { block = block $0 "\n"; if ($0 == "# try.sh SCENARIO") found = 1 } END { printf "%s", block }' \
    ../docs/OUTSIDE.md > "$here/page/try.sh"
printf '%s\n' '#!/bin/sh' "exec '$outside/out/note' unchecked_sync \"\$@\"" > "$here/page/save.py"
chmod +x "$here/page/try.sh" "$here/page/save.py"

# tried COMMANDS SCENARIO: what the page's try.sh writes with that folder of commands, what it tells, and its status
tried() { (cd "$here/page" && PATH="$1:$PATH" ./try.sh "$2" 2>&1; echo "$?") | tr '\t' ' ' | paste -s -d , ; }

clean='2*sys::open;sys::write;sys::fsync;sys::rename;sys::fsync'
is 'the page' "pass none $clean,0" "$(tried "$outside/out/bin" none)"
is 'its flaw, whose cut asks for the contents' "fail lost sys::fsync=1*return $clean;power::keep,0" "$(tried "$outside/out/bin" 'sys::fsync=1*return')"
is 'a run that it ends tells its hits up to there' 'unresolved sys::write=pause 2*sys::open;sys::write;power::keep,0' "$(tried "$outside/out/bin" 'sys::write=pause')"
mkdir "$here/hasty" && printf '#!/bin/sh\nshift 3\nexec %s -s KILL 1 "$@"\n' "$(command -v timeout)" > "$here/hasty/timeout" && chmod +x "$here/hasty/timeout"
is 'one that is killed too' 'unresolved sys::write=sleep(20000) 2*sys::open;sys::write;power::keep,0' \
    "$(PATH="$here/hasty:$PATH" tried "$outside/out/bin" 'sys::write=sleep(20000)' | sed 's/^Killed,//')"
# As the shell does where a command isn't there.
mkdir "$here/none" "$here/half" && cp out/powercut "$here/half/paklour-powercut"
for lacks in none/paklour-powercut half/paklour-faults; do printf '#!/bin/sh\nexit 127\n' > "$here/$lacks" && chmod +x "$here/$lacks"; done
is 'without the commands it ends with 2' 2 "$(tried "$here/none" 'sys::fsync=1*return')"
is 'and without the supervisor' "powercut: nothing ran under the supervisor: paklour-faults wasn't started with this FAULTS_RUN, or ended before its command began,2" \
    "$(tried "$here/half" 'sys::fsync=1*return')"
sed -i 's/^exec /&env -i /' "$here/page/save.py"
is 'and a program that clears its environment' "fail lost sys::fsync=1*return $clean;power::keep,0" "$(tried "$outside/out/bin" 'sys::fsync=1*return')"
is 'the trace of a run without faults, as the page has it' '5 sys::rename 1 go note' \
    "$(TRACE=$here/trace tried "$outside/out/bin" none > "$here/said"; cut -f 1-5 "$here/trace" | sed -n 5p | tr '\t' ' ')"
is 'and its hits in order' '2*sys::open;sys::write;sys::fsync;sys::rename;sys::fsync' "$(out/bin/paklour-census --hits "$here/trace")"
