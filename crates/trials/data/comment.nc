%
O1
G00 X1.0 (not closed
M30
