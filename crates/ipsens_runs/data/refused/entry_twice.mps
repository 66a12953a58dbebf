ROWS
 N c
COLUMNS
 x c 1
 x c 1
