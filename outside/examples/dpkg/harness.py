"""The power is cut as on Btrfs, which showed what was found: ext4 and XFS keep the conffile, and their profiles have more than they showed."""

import os

environment = {"FAULTS_SYNC": os.environ.get("FAULTS_SYNC", "btrfs")}
