%
O1
G90 G00 X5.0 Y5.0
G02 X25.0 R12.0 J-5.0 (one of them)
M30
