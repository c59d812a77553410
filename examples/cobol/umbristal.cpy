      *> Umbristal for COBOL: COPY "umbristal.cpy" in working storage.
      *> What the calls do is told in docs/CALLS.md; R33 and the like
      *> are rules of it.
      *>
      *> Every call takes these blocks BY REFERENCE, at the sizes that
      *> they have here, and tells its result in UM-TOLD:
      *>   CALL "umbristal_cobol_check" USING UM-ASK UM-CATALOGUE
      *>       UM-TABLE UM-TOLD
      *>   CALL "umbristal_cobol_make", the same
      *>   CALL "umbristal_cobol_call" USING UM-ASK UM-CATALOGUE
      *>       UM-TABLE UM-POSITION UM-LIST UM-AREA UM-TOLD
      *>   CALL "umbristal_cobol_call_sound", the same (R71)
      *>   CALL "umbristal_cobol_report_nested" USING UM-ASK
      *>       UM-CATALOGUE UM-TABLE UM-LIST UM-LIST-2 UM-OUT UM-TOLD
      *>   CALL "umbristal_cobol_report_joined", "_plain", the same
      *> Write RETURNING NOTHING behind each: without it RETURN-CODE
      *> holds something that means nothing after the call.
      *>
      *> What is asked: the number of the call (of a call alone), and
      *> how many bytes of each block count. The bytes behind them
      *> stay as they are. A length above the block's size counts as
      *> that size. UM-AREA-LEN and UM-OUT-LEN are the same bytes: set
      *> the one that is meant before each call or report. A table of
      *> so many cells has 8 + cells * (1 + longest type) bytes.
      *> Numbers have their high byte first, as COMP has by default
      *> (not with -fbinary-byteorder=native). Level 78 is known to
      *> the dialects default, ibm and mf, not to cobol2014.
       01  UM-ASK.
           05  UM-CALL-NUMBER       BINARY-CHAR UNSIGNED VALUE 0.
           05  UM-CATALOGUE-LEN     PIC 9(9) COMP VALUE 0.
           05  UM-TABLE-LEN         PIC 9(9) COMP VALUE 0.
           05  UM-LIST-LEN          PIC 9(9) COMP VALUE 0.
           05  UM-LIST-2-LEN        PIC 9(9) COMP VALUE 0.
           05  UM-AREA-LEN          PIC 9(9) COMP VALUE 120.
           05  UM-OUT-LEN           REDEFINES UM-AREA-LEN
                                    PIC 9(9) COMP.
      *> The result (R72). Of a report UM-HITS is what it shows.
       01  UM-TOLD.
           05  UM-LETTERS           PIC XX VALUE "??".
               88  UM-DONE          VALUE SPACES "GA" "GK".
               88  UM-AT-END        VALUE "GB".
               88  UM-NOT-FOUND     VALUE "GE" "GP".
           05  UM-STATUS            BINARY-CHAR UNSIGNED.
           05  UM-TYPE              BINARY-CHAR UNSIGNED.
           05  UM-LEVEL             BINARY-CHAR UNSIGNED.
           05  UM-LENGTH            BINARY-CHAR UNSIGNED.
           05  UM-REMOVED           PIC 9(4) COMP.
           05  UM-HITS              REDEFINES UM-REMOVED PIC 9(4) COMP.
      *> The position (R23). LOW-VALUES are the fresh one.
       01  UM-POSITION.
           05  UM-PLACE             BINARY-CHAR UNSIGNED VALUE 0.
               88  UM-ON-CELL       VALUE 1.
           05  UM-CELL              PIC 9(4) COMP VALUE 0.
           05  UM-HAS-PARENTAGE     BINARY-CHAR UNSIGNED VALUE 0.
           05  UM-PARENTAGE         PIC 9(4) COMP VALUE 0.
           05  UM-HOLD              BINARY-CHAR UNSIGNED VALUE 0.
               88  UM-HELD          VALUE 1.
           05  FILLER               BINARY-CHAR UNSIGNED VALUE 0.
      *> The blocks. Catalogue, table and lists have a byte more than
      *> any that is right, so that what is too long is refused.
       01  UM-CATALOGUE             PIC X(521).
       01  UM-TABLE                 PIC X(495625).
       01  UM-LIST                  PIC X(1846).
       01  UM-LIST-2                PIC X(1846).
       01  UM-AREA                  PIC X(120).
      *> What a report shows: the number of a cell for each segment.
      *> The type of cell N is the byte UM-TABLE(9 + N * C : 1), and
      *> its data begin behind it, at UM-TABLE(10 + N * C : length),
      *> with C one more than the longest type has bytes.
       01  UM-OUT.
           05  UM-OUT-CELL          PIC 9(4) COMP OCCURS 4096 TIMES.
      *> The calls (R32).
       78  UM-GU                    VALUE 1.
       78  UM-GN                    VALUE 2.
       78  UM-GNP                   VALUE 3.
       78  UM-GHU                   VALUE 4.
       78  UM-GHN                   VALUE 5.
       78  UM-GHNP                  VALUE 6.
       78  UM-ISRT                  VALUE 7.
       78  UM-REPL                  VALUE 8.
       78  UM-DLET                  VALUE 9.
      *> The statuses, as UM-STATUS has them (R48). Below 10 the call
      *> was done; from 20 on nothing is changed.
       78  UM-BLANK                 VALUE 0.
       78  UM-GA                    VALUE 1.
       78  UM-GK                    VALUE 2.
       78  UM-GB                    VALUE 10.
       78  UM-GE                    VALUE 11.
       78  UM-GP                    VALUE 12.
       78  UM-CX                    VALUE 20.
       78  UM-TX                    VALUE 21.
       78  UM-PX                    VALUE 22.
       78  UM-AD                    VALUE 23.
       78  UM-AC                    VALUE 24.
       78  UM-AJ                    VALUE 25.
       78  UM-AK                    VALUE 26.
       78  UM-AH                    VALUE 27.
       78  UM-AB                    VALUE 28.
       78  UM-DJ                    VALUE 29.
       78  UM-DA                    VALUE 30.
       78  UM-II                    VALUE 31.
       78  UM-FX                    VALUE 32.
       78  UM-PD                    VALUE 33.
      *> The operators of an argument (R25).
       78  UM-OP-NONE               VALUE 0.
       78  UM-OP-EQ                 VALUE 1.
       78  UM-OP-NE                 VALUE 2.
       78  UM-OP-LT                 VALUE 3.
       78  UM-OP-LE                 VALUE 4.
       78  UM-OP-GT                 VALUE 5.
       78  UM-OP-GE                 VALUE 6.
      *> Limits. No catalogue, no table and no list that is right is
      *> longer than this, and an area of 120 bytes is long enough for
      *> every catalogue.
       78  UM-TYPES-MOST            VALUE 32.
       78  UM-FIELDS-MOST           VALUE 64.
       78  UM-LEVELS-MOST           VALUE 15.
       78  UM-AREA-MOST             VALUE 120.
       78  UM-CELLS-MOST            VALUE 4096.
       78  UM-CATALOGUE-MOST        VALUE 520.
       78  UM-TABLE-MOST            VALUE 495624.
       78  UM-LIST-MOST             VALUE 1845.
       78  UM-OUT-MOST              VALUE 8192.
