ROWS
 N c
COLUMNS
 x c 4x
