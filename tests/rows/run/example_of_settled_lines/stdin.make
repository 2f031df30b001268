cat "$rows/../../examples/settled.lines"
