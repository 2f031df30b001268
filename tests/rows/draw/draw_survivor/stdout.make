cat "$rows/../../docs/pictures/survivor.svg"
