NAME          STAFFING
ROWS
 N  WAGES
 G  EARLY
 G  NOON
 G  LATE
 G  NIGHT
 L  TRAINED
COLUMNS
    MARKER    'MARKER'    'INTORG'
    MORNING   WAGES       96       EARLY     1
    MORNING   NOON        1        TRAINED   1
    MIDDAY    WAGES       90       NOON      1
    MIDDAY    LATE        1
    EVENING   WAGES       104      LATE      1
    EVENING   NIGHT       1        TRAINED   1
    SPLIT     WAGES       112      EARLY     1
    SPLIT     LATE        1
    MARKER    'MARKER'    'INTEND'
RHS
    NEED      EARLY       4        NOON      6
    NEED      LATE        7        NIGHT     3
    NEED      TRAINED     6
BOUNDS
 UP CREW      MORNING     6
 UP CREW      MIDDAY      6
 LO CREW      EVENING     1
 UP CREW      EVENING     5
 UP CREW      SPLIT       4
ENDATA
