%
O1
(in steps of 0.001 mm)
G00 X5.0 Y1.0005
M30
