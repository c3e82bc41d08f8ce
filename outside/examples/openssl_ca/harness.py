states = ["live"]  # no sync is promised: each run is judged as it is, without a power cut
