NAME          CAPITAL
ROWS
 N  COST
 L  YEAR1
 L  YEAR2
 L  STAFF
COLUMNS
    MARKER    'MARKER'    'INTORG'
    PRESS     COST        -96      YEAR1     40
    PRESS     YEAR2       12       STAFF     3
    OVEN      COST        -57      YEAR1     25
    OVEN      YEAR2       9        STAFF     2
    VAN       COST        -34      YEAR1     18
    VAN       YEAR2       2        STAFF     1
    SHOP      COST        -81      YEAR1     30
    SHOP      YEAR2       22       STAFF     4
    SITE      COST        -26      YEAR1     8
    SITE      YEAR2       6        STAFF     1
    STOCK     COST        -18      YEAR1     10
    MARKER    'MARKER'    'INTEND'
RHS
    BUDGET    YEAR1       90       YEAR2     40
    BUDGET    STAFF       8
BOUNDS
 BV CHOICE    PRESS
 BV CHOICE    OVEN
 UP CHOICE    VAN         2
 BV CHOICE    SHOP
 BV CHOICE    SITE
 BV CHOICE    STOCK
ENDATA
