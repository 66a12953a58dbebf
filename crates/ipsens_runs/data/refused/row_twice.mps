ROWS
 N c
 L c
