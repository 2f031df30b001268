cat "$rows/../../examples/domino.script"
