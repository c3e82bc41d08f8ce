//! driver POINT..: hits these points one after the other, and prints what each hit came to: `go`, or `return(TEXT)`. `held` runs it.

fn hit(point: &str) -> String {
    fail::fail_point!(point, |text: Option<String>| format!("return({})", text.unwrap_or_default()));
    "go".to_string()
}

fn main() {
    let scenario = fail::FailScenario::setup();
    for point in std::env::args().skip(1) {
        println!("{}", hit(&point));
    }
    scenario.teardown();
}
