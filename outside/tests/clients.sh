# By what a program hits points of its own, in each language: each held to the table that `paklour explain` made. Sourced by `test`.
# The interpreter itself, where `python3` is a script that looks for it.
python=$(python3 -c 'import sys; print(sys.executable)')
PATH=${python%/*}:$PATH
rows=$(grep -c '^scenario ' points/table)

is 'points in C, and the table' "$rows rows, 0 differ" "$(points/held out/driver)"
is 'points in Python, and the table' "$rows rows, 0 differ" "$(PYTHONPATH=points/python/src points/held python3 -S -B points/driver.py)"
g++ -std=c++17 -Wall -Wextra -Werror -x c++ points/driver.c -o "$here/driver"
is 'points in C++, and the table' "$rows rows, 0 differ" "$(points/held "$here/driver")"
is 'each row that isn'"'"'t refused differs if a program says something else' "$rows rows, $((rows - $(grep -c '^refused ' points/table))) differ" "$(points/held sh -c 'echo other' | tail -n 1)"

# In C a point changes no errno, whatever it comes to, and needs no room for a text.
cat > "$here/kept.c" <<'end'
#include "paklour.h"
#include <fcntl.h>
#include <stdio.h>
#include <string.h>
int main(void) {
    char text[128];
    close(open("new", O_CREAT | O_WRONLY, 0600));
    for (int i = 0; i < 4; i++) {
        memset(text, 'x', sizeof text);
        errno = 33;
        int fails = i % 2 ? paklour_hit("store::flush", NULL) : paklour_hit("store::flush", text);
        printf("%d %d %zu\n", fails, errno, i % 2 ? 0 : strnlen(text, sizeof text));
    }
}
end
gcc -std=c99 -D_POSIX_C_SOURCE=200809L -pedantic -Wall -Wextra -Werror -I points -o "$here/kept" "$here/kept.c"
new
run "store::flush=1*return($(repeated 127 x))->1*return->1*off->return(y)" "$here/kept"
is 'in C no errno changes, and a text has its end' '1 33 127,1 33 0,0 33 0,1 33 0' "$said"
is 'outside of Paklour neither' '0 33 0,0 33 0,0 33 0,0 33 0' "$(cd "$here/data" && "$here/kept" | paste -s -d ,)"

# In Python.
uses='from paklour_points import hit; print(hit("a"), hit("a"), hit("a"), hit("a"), sep="|")'
new
run 'a=1*off->1*return->return(again)' env PYTHONPATH="$outside/points/python/src" python3 -S -B -c "$uses"
is 'in Python a point returns None, or a text' 'None||again|again' "$said"
is 'and outside of Paklour None' 'None|None|None|None' "$(PYTHONPATH=points/python/src python3 -S -B -c "$uses")"

# As pip installs it, with no network.
if python3 -m pip --version > "$here/said" 2>&1; then
    python3 -m pip -q install --no-index --disable-pip-version-check --root-user-action ignore --target "$here/site" ./points/python > "$here/said" 2>&1
    is 'the module as pip installs it' "None|None|None|None pyproject.toml,src,wheel_of_points.py" \
        "$(cd "$here" && PYTHONPATH=$here/site python3 -c "$uses" 2>&1) $(ls points/python | grep -vx __pycache__ | paste -s -d ,)"
else
    echo 'skipped the Python module as pip installs it: no pip'
fi

# In several languages and processes of one run: they share the counts, and stand among the calls.
new
run 'a=2*off->1*return;sys::mkdir=1*return' env OUTSIDE="$outside" PYTHONPATH="$outside/points/python/src" \
    sh -c '"$OUTSIDE/out/driver" a; python3 -S -B "$OUTSIDE/points/driver.py" a a; mkdir d'
is 'one run in two languages' 'go,go,return() 1 a,2 a,3 a,4 sys::mkdir' \
    "$said $(cut -f 1,2 "$here/run/trace" | tr '\t' ' ' | paste -s -d ,)"

# In Rust, by the crate that stands in the place of fail-rs: its driver, and each form of its macro.
if command -v rustc > "$here/said" 2>&1; then
    crate() { rustc --edition 2021 --crate-name fail --crate-type rlib "$@" -o "$here/libfail.rlib" points/rust/src/lib.rs; }
    crate --cfg 'feature="failpoints"' && rustc --edition 2021 --extern fail="$here/libfail.rlib" -o "$here/driver" points/driver.rs
    is 'points in Rust, and the table' "$rows rows, 0 differ" "$(points/held "$here/driver")"
    cat > "$here/forms.rs" <<'end'
fn by_name() {
    fail::fail_point!("a");
}
fn by_closure() -> i32 {
    fail::fail_point!("b", |text: Option<String>| text.map_or(1, |text| text.parse().unwrap()));
    0
}
fn by_condition(holds: bool) -> i32 {
    fail::fail_point!("c", holds, |_| 2);
    0
}
fn main() {
    std::fs::File::create("new").unwrap();
    let scenario = fail::FailScenario::setup();
    println!("{} {} {} {}", by_closure(), by_closure(), by_condition(false), by_condition(true));
    fail::remove("a");
    println!("{} {} {}", fail::has_failpoints(), fail::cfg("a", "off").is_err(), fail::FailGuard::new("a", "off").is_err());
    by_name();
    scenario.teardown();
    println!("done");
}
end
    rustc --edition 2021 --extern fail="$here/libfail.rlib" -o "$here/forms" "$here/forms.rs"
    new
    run 'b=1*return->return(7);c=return;a=sleep(1)' "$here/forms"
    is 'each form of the macro' '1 7 0 2,true true true,done sys::open,b,b,c,a' "$said $(cut -f 2 "$here/run/trace" | paste -s -d ,)"
    new
    run 'a=return' "$here/forms"
    is 'one without a closure can return nothing' '101 Return is not supported for the fail point "a"' "$status $(grep -o 'Return is.*' "$here/faults")"
    crate && rustc --edition 2021 --extern fail="$here/libfail.rlib" -o "$here/forms" "$here/forms.rs" 2> "$here/told"
    new
    run 'a=panic;b=panic;c=panic' "$here/forms"
    is 'without its feature there are no points' '0 0 0 0,false true true,done sys::open' "$said $(cut -f 2 "$here/run/trace" | paste -s -d ,)"
else
    echo 'skipped points in Rust: no rustc'
fi

# In Go, by the package that stands in the place of the runtime of gofail.
if env go version > "$here/said" 2>&1; then
    build() { (cd "$here/go" && rm "$here/driver" && env GOCACHE="$here/go/cache" GOFLAGS=-mod=mod GOPROXY=off GOTOOLCHAIN=local go build -o "$here/driver" .); }
    mkdir "$here/go" && cp points/driver.go "$here/go/main.go"
    printf 'module driver\n\ngo 1.17\n\nrequire go.etcd.io/gofail v0.1.0\n\nreplace go.etcd.io/gofail => %s/points/go\n' "$outside" > "$here/go/go.mod"
    build
    is 'points in Go, and the table' "$rows rows, 0 differ" "$(points/held "$here/driver")"
    cat > "$here/go/main.go" <<'end'
package main

import (
	"fmt"

	"go.etcd.io/gofail/runtime"
)

func main() {
	for _, point := range []*runtime.Failpoint{runtime.NewFailpoint("p", "a", false), runtime.NewFailpoint("p/b"), runtime.NewFailpoint("p/b")} {
		value, err := point.Acquire()
		fmt.Printf("%T %v %v\n", value, value, err)
	}
	fmt.Println(runtime.List(), runtime.Enable("p/a", "off") != nil)
}
end
    build
    new
    run 'p/a=return(5);p/b=1*return("a b")->return(true)' sh -c ": > new; '$here/driver'"
    is 'names and values of gofail' 'int 5 <nil>,string a b <nil>,bool true <nil>,[p/a p/b p/b] true' "$said"
    rm -rf "$here/go"
else
    echo 'skipped points in Go: no go'
fi
