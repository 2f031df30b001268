cat "$rows/../../docs/pictures/domino.svg"
