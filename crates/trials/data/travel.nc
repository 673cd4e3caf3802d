%
O1
G90 G00 X5.0 Y5.0
M03 S6000
G01 (down	to the table) Z-700.0 F200.0
M30
