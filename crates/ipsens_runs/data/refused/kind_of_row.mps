ROWS
 X r
