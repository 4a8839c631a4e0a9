      * Writes examples/ledger.bin, but with its texts in ASCII: docs/COPYBOOK.md says how
      * it is compiled, run, and its texts are put into EBCDIC. A line of the input is the
      * fields with ';' between them; an empty field is left as it was filled with blanks.
       IDENTIFICATION DIVISION.
       PROGRAM-ID. LEDGER.
       ENVIRONMENT DIVISION.
       INPUT-OUTPUT SECTION.
       FILE-CONTROL.
           SELECT LEDGER-FILE ASSIGN TO "ledger.ascii"
               ORGANIZATION IS SEQUENTIAL.
       DATA DIVISION.
       FILE SECTION.
       FD  LEDGER-FILE.
       01  LEDGER-RECORD.
           05  ACCOUNT-NO      PIC 9(6).
           05  HOLDER          PIC X(12).
           05  BALANCE         PIC S9(7)V99 COMP-3.
           05  BALANCE-X       REDEFINES BALANCE PIC X(5).
           05  LAST-CHANGE     PIC S9(5)V99.
           05  LAST-CHANGE-X   REDEFINES LAST-CHANGE PIC X(7).
           05  RATE            PIC 9V999 COMP-3.
           05  BRANCH-NO       PIC 9(4) COMP.
       WORKING-STORAGE SECTION.
       01  AT-END              PIC X VALUE "N".
       01  INPUT-LINE          PIC X(60).
       01  PARTS.
           05  P-ACCOUNT       PIC X(6).
           05  P-HOLDER        PIC X(12).
           05  P-BALANCE       PIC X(12).
           05  P-CHANGE        PIC X(12).
           05  P-RATE          PIC X(8).
           05  P-BRANCH        PIC X(4).
       PROCEDURE DIVISION.
       MAIN.
           OPEN OUTPUT LEDGER-FILE.
           PERFORM UNTIL AT-END = "Y"
               MOVE SPACES TO INPUT-LINE
               ACCEPT INPUT-LINE
               IF INPUT-LINE = SPACES
                   MOVE "Y" TO AT-END
               ELSE
                   PERFORM WRITE-ONE
               END-IF
           END-PERFORM.
           CLOSE LEDGER-FILE.
           STOP RUN.
       WRITE-ONE.
           MOVE SPACES TO PARTS.
           UNSTRING INPUT-LINE DELIMITED BY ";"
               INTO P-ACCOUNT P-HOLDER P-BALANCE P-CHANGE
                    P-RATE P-BRANCH.
           COMPUTE ACCOUNT-NO = FUNCTION NUMVAL(P-ACCOUNT).
           MOVE P-HOLDER TO HOLDER.
           IF P-BALANCE = SPACES
               MOVE X"4040404040" TO BALANCE-X
           ELSE
               COMPUTE BALANCE = FUNCTION NUMVAL(P-BALANCE)
           END-IF.
           IF P-CHANGE = SPACES
               MOVE SPACES TO LAST-CHANGE-X
           ELSE
               COMPUTE LAST-CHANGE = FUNCTION NUMVAL(P-CHANGE)
           END-IF.
           COMPUTE RATE = FUNCTION NUMVAL(P-RATE).
           COMPUTE BRANCH-NO = FUNCTION NUMVAL(P-BRANCH).
           WRITE LEDGER-RECORD.
