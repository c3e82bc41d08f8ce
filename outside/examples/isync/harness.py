"""A power cut may leave the state as it was before the run, and then messages that it copied are copied again. So each run is judged without one."""

states = ["live"]
