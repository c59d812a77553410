      *> BENCH CAT.HDC TAB.HDT: checks the two blocks, walks over all
      *> segments by GN, shows the tries of unit 07 in a report,
      *> deletes step 14 of unit 07 with its tries, is refused a unit
      *> that is there already, and inserts a step. The files are
      *> read, never written. To compile it, with the copybook's folder
      *> for DIR: cobc -x -fstatic-call -I DIR bench.cob -lumbristal
       IDENTIFICATION DIVISION.
       PROGRAM-ID. BENCH.
       DATA DIVISION.
       WORKING-STORAGE SECTION.
           COPY "umbristal.cpy".
      *> Types and fields, as the bench catalogue numbers them.
       78  UNIT-TYPE                VALUE 1.
       78  STEP-TYPE                VALUE 2.
       78  TRY-TYPE                 VALUE 3.
       78  UNIT-KEY                 VALUE 1.
       78  STEP-KEY                 VALUE 2.
      *> Argument lists, to the byte (R24): type, operator and, behind
      *> an operator other than none, field and value.
      *> [unit]
       01  UNIT-07.
           05  FILLER               BINARY-CHAR UNSIGNED
                                    VALUE UNIT-TYPE.
           05  FILLER               BINARY-CHAR UNSIGNED
                                    VALUE UM-OP-EQ.
           05  FILLER               BINARY-CHAR UNSIGNED
                                    VALUE UNIT-KEY.
           05  FILLER               PIC XX VALUE "07".
      *> [end]
       01  STEP-14.
           05  FILLER               BINARY-CHAR UNSIGNED
                                    VALUE STEP-TYPE.
           05  FILLER               BINARY-CHAR UNSIGNED
                                    VALUE UM-OP-EQ.
           05  FILLER               BINARY-CHAR UNSIGNED
                                    VALUE STEP-KEY.
           05  FILLER               PIC XX VALUE "14".
       01  UNIT-09-STEP.
           05  FILLER               BINARY-CHAR UNSIGNED
                                    VALUE UNIT-TYPE.
           05  FILLER               BINARY-CHAR UNSIGNED
                                    VALUE UM-OP-EQ.
           05  FILLER               BINARY-CHAR UNSIGNED
                                    VALUE UNIT-KEY.
           05  FILLER               PIC XX VALUE "09".
           05  FILLER               BINARY-CHAR UNSIGNED
                                    VALUE STEP-TYPE.
           05  FILLER               BINARY-CHAR UNSIGNED
                                    VALUE UM-OP-NONE.
       01  ANY-UNIT.
           05  FILLER               BINARY-CHAR UNSIGNED
                                    VALUE UNIT-TYPE.
           05  FILLER               BINARY-CHAR UNSIGNED
                                    VALUE UM-OP-NONE.
       01  ANY-TRY.
           05  FILLER               BINARY-CHAR UNSIGNED
                                    VALUE TRY-TYPE.
           05  FILLER               BINARY-CHAR UNSIGNED
                                    VALUE UM-OP-NONE.
       01  SHOWN.
           05  SHOWN-CELL           PIC Z(3)9.
           05  FILLER               PIC X VALUE SPACE.
           05  SHOWN-TYPE           PIC Z9.
           05  FILLER               PIC X VALUE SPACE.
           05  SHOWN-LEVEL          PIC Z9.
       01  SHOWN-COUNT              PIC Z(3)9.
       01  I                        BINARY-LONG UNSIGNED.
      *> Reading a file.
       01  ARGUMENTS                BINARY-LONG.
       01  FILE-PATH                PIC X(1024).
       01  FILE-FAULT               PIC X(40).
       01  FILE-MOST                BINARY-LONG.
       01  FILE-HANDLE              PIC X(4) COMP-X.
       01  FILE-OFFSET              PIC X(8) COMP-X.
       01  FILE-ASKED               PIC X(4) COMP-X.
       01  FILE-READ                PIC X COMP-X VALUE 1.
       01  FILE-FLAGS               PIC X COMP-X VALUE 0.
       01  FILE-DEVICE              PIC X COMP-X VALUE 0.
       01  FILE-DETAILS.
           05  FILE-SIZE            PIC X(8) COMP-X.
           05  FILLER               PIC X(8).
       PROCEDURE DIVISION.
       MAIN-PARAGRAPH.
           PERFORM READ-BLOCKS
           PERFORM CHECK-BLOCKS
           PERFORM WALK
           PERFORM SHOW-TRIES
           PERFORM DELETE-STEP
           PERFORM INSERT-TWICE
           PERFORM INSERT-STEP
           PERFORM WALK
           MOVE 0 TO RETURN-CODE
           STOP RUN.

      *> [check]
       CHECK-BLOCKS.
           CALL "umbristal_cobol_check" USING UM-ASK UM-CATALOGUE
               UM-TABLE UM-TOLD RETURNING NOTHING
           IF NOT UM-DONE
               DISPLAY "the blocks are refused: " UM-LETTERS
                   UPON SYSERR
               MOVE 1 TO RETURN-CODE
               STOP RUN
           END-IF.
      *> [end]

      *> GN with an empty list until GB. The blocks were checked, and
      *> only calls change them: the sound call will do (R71).
      *> [walk]
       WALK.
           DISPLAY "all segments:"
           MOVE LOW-VALUES TO UM-POSITION
           MOVE UM-GN TO UM-CALL-NUMBER
           MOVE 0 TO UM-LIST-LEN
           MOVE UM-AREA-MOST TO UM-AREA-LEN
           PERFORM WITH TEST AFTER UNTIL NOT UM-DONE
               CALL "umbristal_cobol_call_sound" USING UM-ASK
                   UM-CATALOGUE UM-TABLE UM-POSITION UM-LIST UM-AREA
                   UM-TOLD RETURNING NOTHING
               IF UM-DONE
                   PERFORM SHOW-SEGMENT
               ELSE
                   DISPLAY "  [" UM-LETTERS "]"
               END-IF
           END-PERFORM.
      *> [end]

       SHOW-SEGMENT.
           MOVE UM-CELL TO SHOWN-CELL
           MOVE UM-TYPE TO SHOWN-TYPE
           MOVE UM-LEVEL TO SHOWN-LEVEL
           DISPLAY "  [" UM-LETTERS "]" SHOWN " "
               UM-AREA(1:UM-LENGTH).

      *> [report]
       SHOW-TRIES.
           MOVE UNIT-07 TO UM-LIST
           MOVE LENGTH OF UNIT-07 TO UM-LIST-LEN
           MOVE ANY-TRY TO UM-LIST-2
           MOVE LENGTH OF ANY-TRY TO UM-LIST-2-LEN
           MOVE UM-OUT-MOST TO UM-OUT-LEN
           CALL "umbristal_cobol_report_nested" USING UM-ASK
               UM-CATALOGUE UM-TABLE UM-LIST UM-LIST-2 UM-OUT UM-TOLD
               RETURNING NOTHING
           MOVE UM-HITS TO SHOWN-COUNT
           DISPLAY "tries of unit 07: [" UM-LETTERS "]" SHOWN-COUNT
           PERFORM VARYING I FROM 1 BY 1 UNTIL I > UM-HITS
               MOVE UM-OUT-CELL(I) TO SHOWN-CELL
               DISPLAY "  cell " SHOWN-CELL
           END-PERFORM.
      *> [end]

      *> GHU holds the step, DLET takes it away with all beneath it.
      *> [delete]
       DELETE-STEP.
           DISPLAY "step 14 of unit 07:"
           MOVE LOW-VALUES TO UM-POSITION
           MOVE UM-GHU TO UM-CALL-NUMBER
           STRING UNIT-07 STEP-14 DELIMITED BY SIZE INTO UM-LIST
           ADD LENGTH OF UNIT-07 LENGTH OF STEP-14 GIVING UM-LIST-LEN
           MOVE UM-AREA-MOST TO UM-AREA-LEN
           PERFORM CALL-STORE
           IF NOT UM-DONE
               DISPLAY "  [" UM-LETTERS "]"
               EXIT PARAGRAPH
           END-IF
           PERFORM SHOW-SEGMENT
           MOVE UM-DLET TO UM-CALL-NUMBER
           MOVE 0 TO UM-LIST-LEN
           PERFORM CALL-STORE
           MOVE UM-REMOVED TO SHOWN-COUNT
           DISPLAY "deleted: [" UM-LETTERS "] removed" SHOWN-COUNT.

       CALL-STORE.
           CALL "umbristal_cobol_call" USING UM-ASK UM-CATALOGUE
               UM-TABLE UM-POSITION UM-LIST UM-AREA UM-TOLD
               RETURNING NOTHING.
      *> [end]

      *> Unit 07 is there, and its key is unique: II.
      *> [refusal]
       INSERT-TWICE.
           MOVE UM-ISRT TO UM-CALL-NUMBER
           MOVE ANY-UNIT TO UM-LIST
           MOVE LENGTH OF ANY-UNIT TO UM-LIST-LEN
           MOVE "07Z" TO UM-AREA
           PERFORM CALL-STORE
           EVALUATE UM-STATUS
               WHEN UM-BLANK
                   DISPLAY "unit 07 is inserted a second time"
               WHEN UM-II
                   DISPLAY "unit 07 is there: [" UM-LETTERS "]"
               WHEN OTHER
                   DISPLAY "unit 07 is refused: [" UM-LETTERS "]"
           END-EVALUATE.
      *> [end]

      *> [insert]
       INSERT-STEP.
           MOVE UM-ISRT TO UM-CALL-NUMBER
           MOVE UNIT-09-STEP TO UM-LIST
           MOVE LENGTH OF UNIT-09-STEP TO UM-LIST-LEN
           MOVE "15R" TO UM-AREA
           PERFORM CALL-STORE
           DISPLAY "a step for unit 09:"
           IF UM-DONE
               PERFORM SHOW-SEGMENT
           ELSE
               DISPLAY "  [" UM-LETTERS "]"
           END-IF.
      *> [end]

       READ-BLOCKS.
           ACCEPT ARGUMENTS FROM ARGUMENT-NUMBER
           IF ARGUMENTS NOT = 2
               DISPLAY "bench: two files are asked for, "
                   "a catalogue and a table" UPON SYSERR
               MOVE 2 TO RETURN-CODE
               STOP RUN
           END-IF
           MOVE UM-CATALOGUE-MOST TO FILE-MOST
           PERFORM OPEN-FILE
           MOVE FILE-SIZE TO UM-CATALOGUE-LEN
           CALL "CBL_READ_FILE" USING FILE-HANDLE FILE-OFFSET
               FILE-ASKED FILE-FLAGS UM-CATALOGUE
           PERFORM CLOSE-FILE
           MOVE UM-TABLE-MOST TO FILE-MOST
           PERFORM OPEN-FILE
           MOVE FILE-SIZE TO UM-TABLE-LEN
           CALL "CBL_READ_FILE" USING FILE-HANDLE FILE-OFFSET
               FILE-ASKED FILE-FLAGS UM-TABLE
           PERFORM CLOSE-FILE.

       OPEN-FILE.
           ACCEPT FILE-PATH FROM ARGUMENT-VALUE
           CALL "CBL_CHECK_FILE_EXIST" USING FILE-PATH FILE-DETAILS
           IF RETURN-CODE NOT = 0
               MOVE "is not there" TO FILE-FAULT
               PERFORM FAIL-FILE
           END-IF
           IF FILE-SIZE > FILE-MOST
               MOVE "is too long" TO FILE-FAULT
               PERFORM FAIL-FILE
           END-IF
           CALL "CBL_OPEN_FILE" USING FILE-PATH FILE-READ FILE-FLAGS
               FILE-DEVICE FILE-HANDLE
           IF RETURN-CODE NOT = 0
               MOVE "cannot be opened" TO FILE-FAULT
               PERFORM FAIL-FILE
           END-IF
           MOVE 0 TO FILE-OFFSET
           MOVE FILE-SIZE TO FILE-ASKED.

      *> Behind a read, which has left its own code.
       CLOSE-FILE.
           IF RETURN-CODE NOT = 0
               MOVE "could not be read whole" TO FILE-FAULT
               PERFORM FAIL-FILE
           END-IF
           CALL "CBL_CLOSE_FILE" USING FILE-HANDLE.

       FAIL-FILE.
           DISPLAY FUNCTION TRIM(FILE-PATH) ": "
               FUNCTION TRIM(FILE-FAULT) UPON SYSERR
           MOVE 2 TO RETURN-CODE
           STOP RUN.
