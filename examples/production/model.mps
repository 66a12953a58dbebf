NAME          BATCHES
ROWS
 N  LOSS
 L  KETTLE
 L  FILLER
 E  PALLETS
 G  ORDER
COLUMNS
    MARKER    'MARKER'    'INTORG'
    SYRUP     LOSS        -120     KETTLE    6
    SYRUP     FILLER      4        PALLETS   3
    SYRUP     ORDER       2
    SAUCE     LOSS        -95      KETTLE    5
    SAUCE     FILLER      3        PALLETS   2
    SAUCE     ORDER       1
    JUICE     LOSS        -70      KETTLE    2
    JUICE     FILLER      5        PALLETS   2
    SPARE     PALLETS     1
    MARKER    'MARKER'    'INTEND'
RHS
    PLAN      KETTLE      40       FILLER    36
    PLAN      PALLETS     20       ORDER     6
BOUNDS
 UP LOT       SYRUP       8
 UP LOT       SAUCE       8
 UP LOT       JUICE       8
 UP LOT       SPARE       3
ENDATA
