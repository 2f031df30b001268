"$program" draw "$rows/../../examples/ping_pong.script" --failed ping,pong
