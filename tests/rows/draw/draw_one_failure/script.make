cat "$rows/../../examples/one_failure.script"
