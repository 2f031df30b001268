cat "$rows/../../examples/survivor.script"
