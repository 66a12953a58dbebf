ROWS
 N cost
