//! The macro and the calls of fail-rs 0.5, for a program whose points Paklour drives. One entry of the program's manifest takes this crate in place of
//! that one:
//!
//! ```toml
//! [patch.crates-io]
//! fail = { path = "PAKLOUR/outside/points/rust" }
//! ```
//!
//! As there, points need the feature `failpoints`; without it the macro is empty. What happens at a point is what the scenario of the run says, which Paklour's
//! supervisor reads, and not the program. So nothing can be set here: `cfg` and the like return an error, which a program that unwraps it shows. Outside of
//! Paklour each step goes on.

use std::marker::PhantomData;

const SET: &str = "the scenario of Paklour says what happens at a point, so the program can set nothing";

/// Hits a point. If it fails, `f` makes the value that the step returns, from the text of the scenario's `return`, if that has one.
#[doc(hidden)]
#[cfg(feature = "failpoints")]
pub fn eval<R, F: FnOnce(Option<String>) -> R>(name: &str, f: F) -> Option<R> {
    const FAILS: i32 = 5; // EIO
    match std::fs::read_link(["/.paklour/", name].concat()) {
        Ok(text) => Some(f(Some(text.to_string_lossy().into_owned()))),
        Err(why) => (why.raw_os_error() == Some(FAILS)).then(|| f(None)),
    }
}

/// A point: by itself; with a closure that makes what the function returns if the point fails; or with that, and only if a condition holds.
#[macro_export]
#[cfg(feature = "failpoints")]
macro_rules! fail_point {
    ($name:expr) => {{
        $crate::eval($name, |_| {
            panic!("Return is not supported for the fail point \"{}\"", $name);
        });
    }};
    ($name:expr, $e:expr) => {{
        if let Some(value) = $crate::eval($name, $e) {
            return value;
        }
    }};
    ($name:expr, $cond:expr, $e:expr) => {{
        if $cond {
            $crate::fail_point!($name, $e);
        }
    }};
}

#[macro_export]
#[cfg(not(feature = "failpoints"))]
macro_rules! fail_point {
    ($name:expr) => {{}};
    ($name:expr, $e:expr) => {{}};
    ($name:expr, $cond:expr, $e:expr) => {{}};
}

pub const fn has_failpoints() -> bool {
    cfg!(feature = "failpoints")
}

/// What a program with points makes at its beginning. The scenario is there without it.
pub struct FailScenario<'a> {
    scenario: PhantomData<&'a ()>,
}

impl<'a> FailScenario<'a> {
    pub fn setup() -> Self {
        FailScenario { scenario: PhantomData }
    }

    pub fn teardown(self) {}
}

/// A point that is set while this lives. None can be.
pub struct FailGuard(());

impl FailGuard {
    pub fn new<S: Into<String>>(_name: S, _actions: &str) -> Result<FailGuard, String> {
        Err(SET.to_string())
    }

    pub fn with_callback<S, F>(_name: S, _f: F) -> Result<FailGuard, String>
    where
        S: Into<String>,
        F: Fn() + Send + Sync + 'static,
    {
        Err(SET.to_string())
    }
}

pub fn cfg<S: Into<String>>(_name: S, _actions: &str) -> Result<(), String> {
    Err(SET.to_string())
}

pub fn cfg_callback<S, F>(_name: S, _f: F) -> Result<(), String>
where
    S: Into<String>,
    F: Fn() + Send + Sync + 'static,
{
    Err(SET.to_string())
}

/// Nothing is set, so nothing is left to remove.
pub fn remove<S: AsRef<str>>(_name: S) {}

/// The points that are set: none.
pub fn list() -> Vec<(String, String)> {
    Vec::new()
}
