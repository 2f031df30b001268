cat "$rows/../../docs/pictures/ping_pong.svg"
