"""A program in Rust that has points of fail-rs, and is built for Paklour by two lines of its manifest (program/Cargo.toml): no line of it has changed.

Found with FLAW=refuses_late, two faults deep: ghost, by the program's own point and what the power cut keeps: the rename. No fault alone shows that, and with
FLAW=sound, the default, nothing is found. The power cut is judged in the one state that the scenario says, so that what it keeps is planned as all else is."""

import os

environment = {"FLAW": os.environ.get("FLAW", "sound")}
states = ["lasting"]
