cat "$rows/../../docs/pictures/one_failure.svg"
