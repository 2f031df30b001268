cat "$rows/../../examples/pipeline.script"
