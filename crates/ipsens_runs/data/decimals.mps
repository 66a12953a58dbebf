NAME example
ROWS
 N cost
 L r1
 L r2
 L r3
COLUMNS
 M 'MARKER' 'INTORG'
 a cost -5 r1 2
 a r2 4 r3 3
 b cost -4.5 r1 3
 b r2 1 r3 4
 c cost -3 r1 1
 c r2 2 r3 2
 M 'MARKER' 'INTEND'
RHS
 RHS r1 5 r2 11
 RHS r3 8
BOUNDS
 UP BND a 10
 UP BND b 10
 UP BND c 10
ENDATA
