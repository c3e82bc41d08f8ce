"""Settings for the programs beside this file, which test etcd. Points have their file's name: a thread of etcd syncs `snap/db` by the clock, so no two runs have
the same hits on all files, but they have the same hits on the files of the log. A fixed order of threads would change nothing about that."""

environment = {"FAULTS_POINTS": "file"}
order, pin = "arrival", False
