ROWS
 N c
COLUMNS
 x c 1
 y c 1
 x c 2
