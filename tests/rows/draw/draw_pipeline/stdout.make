cat "$rows/../../docs/pictures/pipeline.svg"
