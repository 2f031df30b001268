cat "$rows/../../examples/ping_pong.script"
