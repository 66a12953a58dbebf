* capital budget
NAME          BUDGET
ROWS
 N  PROFIT
 L  CAPITAL
COLUMNS
    MARKER    'MARKER'    'INTORG'
    x1        PROFIT      -8.5     CAPITAL   5
    x2        PROFIT      -11.0    CAPITAL   7
    MARKER    'MARKER'    'INTEND'
RHS
    RHS       CAPITAL     14
BOUNDS
 BV BND       x1
 UP BND       x2          1
ENDATA
