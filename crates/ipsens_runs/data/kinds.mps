NAME kinds
ROWS
 N gain
 E equal
 G from
 L to
 G between
 L free
COLUMNS
 M 'MARKER' 'INTORG'
 x gain 0
 y gain -2.50 equal -2.0
 y from 0.5 to 1.0
 y between 0.1 free 1.0
 M 'MARKER' 'INTEND'
RHS
 RHS equal -0.1 gain 1.05
 RHS free 1e30 from 1.5
 RHS between -0.1
RANGES
 RNG between 150.1
BOUNDS
 UP BND x 4
 LO BND x -3
 UI BND y 4
 LI BND y -3
ENDATA
