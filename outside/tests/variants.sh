# The failing calls of points.sh, calls.sh and told.sh once more, by the calls of the system that take a folder, or more arguments. Sourced
# by `test`.
grep -hE '^(fails |rm -f "[$]here/s"$)' tests/points.sh tests/calls.sh tests/told.sh > "$here/again"
FAULTS_SOCKETS=1
export FAULTS_SOCKETS
component=$here/component
gcc -std=gnu11 -O2 -w -DAT -o "$component" component.c -pthread
passed_again=$passed
. "$here/again" > "$here/again.said"
grep FAILED -A 2 "$here/again.said"
echo "ok $((passed - passed_again)) calls that take a folder"
unset FAULTS_SOCKETS
component=$outside/out/component
