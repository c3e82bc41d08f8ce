"""A failed call is enough, so each run is judged as it is, without a power cut. With one a run without faults fails under FAULTS_SYNC=ext4, as fdatasync doesn't
keep a rename there, and no real disk showed that."""

states = ["live"]
