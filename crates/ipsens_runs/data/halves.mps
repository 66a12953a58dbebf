ROWS
 N cost
 L r1
 L r2
COLUMNS
 M 'MARKER' 'INTORG'
 x cost -1 r1 2
 y cost -1 r2 2
 M 'MARKER' 'INTEND'
RHS
 RHS r1 3 r2 3
BOUNDS
 UP BND x 3
 UP BND y 3
ENDATA
