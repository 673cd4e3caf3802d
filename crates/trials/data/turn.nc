%
O1
G90 G00 X5.0 Y5.0
(a full turn has a centre)
G02 R10.0
M30
