* A standalone utility, which the load function brings in from the drive that it was loaded from. It reads the labels of two volumes,
* finds a record of the second by its key, updates it in place, finds it by its identifier, looks for a key that is not there, and
* formats a track. What it finds it prints on the console.
*
* Registers: 1 a channel program, 2 a device's address, 12 the base, 13 and 14 links.
UTILITY START X'1000'
CSW     EQU   64
CAW     EQU   72
IOOLD   EQU   56
IONEW   EQU   120
PGMNEW  EQU   104
CONSOLE EQU   9                    the console's address
WORK    EQU   X'191'               the second volume's drive
        BALR  12,0
        USING *,12
        MVC   PGMNEW(8),FAILED     a program interruption stops the processor
        MVC   IONEW(8),TAKEN       an input/output interruption goes on at IOINT
        LH    2,2                  the load function left the drive's address at 2
        STH   2,RESIDENT
*
*       Both arms are sent off, and move at once: a seek's channel end frees the channel.
        LA    1,SEEK0
        BAL   14,STARTIO
        BAL   14,CHANEND
        LA    1,SEEK1
        LA    2,WORK
        BAL   14,STARTIO
        BAL   14,CHANEND
        LH    2,RESIDENT
        BAL   14,DEVEND
        LA    2,WORK
        BAL   14,DEVEND
        LA    3,MARMS
        BAL   13,PRINT
*
*       The label of each volume: record 3 of its first track.
        LH    2,RESIDENT
        BAL   13,LABEL
        LA    2,WORK
        BAL   13,LABEL
*
*       A record by its key.
        LA    1,FINDKEY
        LA    2,WORK
        BAL   14,DOIO
        BAL   14,GOOD
        MVC   TRECORD+8(24),RECORD
        LA    3,MRECORD
        BAL   13,PRINT
*
*       One more visit: the four digits are packed, made a binary number, counted up and printed again.
        PACK  WHOLE(8),VISITS(4)
        CVB   4,WHOLE
        LA    4,1(4)
        CVD   4,WHOLE
        UNPK  VISITS(4),WHOLE(8)
        OI    VISITS+3,X'F0'       the sign becomes a digit's zone
        LA    1,UPDATE
        LA    2,WORK
        BAL   14,DOIO
        BAL   14,GOOD
        XC    RECORD(24),RECORD
*
*       The same record by its identifier.
        LA    1,FINDID
        BAL   14,DOIO
        BAL   14,GOOD
        MVC   TRECORD+8(24),RECORD
        LA    3,MRECORD
        BAL   13,PRINT
*
*       A key that is not there: the search ends with unit check, and the sense bytes say 'no record found'.
        LA    1,FINDNONE
        LA    2,WORK
        BAL   14,DOIO
        TM    STATUS,X'02'
        BZ    BAD
        LA    1,SENSE
        BAL   14,DOIO
        BAL   14,GOOD
        TM    SENSED+1,X'08'
        BZ    BAD
        LA    3,MNONE
        BAL   13,PRINT
*
*       A track is formatted with three records, whose identifiers are read back.
        LA    1,FORMAT
        LA    2,WORK
        BAL   14,DOIO
        BAL   14,GOOD
        LA    1,COUNTS
        BAL   14,DOIO
        BAL   14,GOOD
        CLC   READ1(8),COUNT1
        BNE   BAD
        CLC   READ2(8),COUNT2
        BNE   BAD
        CLC   READ3(8),COUNT3
        BNE   BAD
        LA    3,MFORMAT
        BAL   13,PRINT
        LA    3,MDONE
        BAL   13,PRINT
        LPSW  DONE
BAD     LPSW  FAILED
*
*       Reads a volume's label and prints its serial number: link in 13.
LABEL   ST    13,LINK
        LA    1,RDLABEL
        BAL   14,DOIO
        BAL   14,GOOD
        CLC   VOL1(4),LABELID
        BNE   BAD
        MVC   TLABEL(3),M190
        CH    2,RESIDENT
        BE    LABEL1
        MVC   TLABEL(3),M191
LABEL1  MVC   TLABEL+17(6),VOL1+4
        LA    3,MLABEL
        BAL   13,PRINT
        L     13,LINK
        BR    13
*
*       Prints the message that register 3 leads to: its length in a byte, and its text. Link in 13.
PRINT   SR    4,4
        IC    4,0(3)
        STH   4,TYPE+6
        LA    3,1(3)
        ST    3,TYPE
        MVI   TYPE,X'09'
        LA    1,TYPE
        LA    2,CONSOLE
        BAL   14,DOIO
        BAL   14,GOOD
        BR    13
*
*       The program ended without a fault: link in 14.
GOOD    CLC   STATUS(2),ENDED
        BNE   BAD
        BR    14
*
*       Starts a channel program and waits for its end: link in 14.
DOIO    ST    14,LINK2
        BAL   14,STARTIO
        BAL   14,DEVEND
        L     14,LINK2
        BR    14
*
*       Starts a channel program: link in 14.
STARTIO ST    1,CAW
        SIO   0(2)
        BC    8,STARTED
        BC    5,BAD                status was stored, or there is no such device
        B     STARTIO              the channel is busy
STARTED XC    STATUS(2),STATUS
        BR    14
*
*       Waits for the channel end of the device in register 2, or for its device end: link in 14. The device end of the other drive may
*       come first, and is kept.
CHANEND MVI   WANTED,X'0A'         channel end, or unit check
        B     WAIT
DEVEND  MVI   WANTED,X'06'         device end, or unit check
        CH    2,EARLY
        BE    CAME                 it has come
WAIT    LPSW  WAITING
IOINT   CH    2,IOOLD+2
        BNE   OTHER
        OC    STATUS(2),CSW+4
        MVC   SEEN(1),STATUS
        NC    SEEN(1),WANTED
        BZ    WAIT
        BR    14
OTHER   TM    CSW+4,X'04'
        BZ    WAIT
        MVC   EARLY(2),IOOLD+2
        B     WAIT
CAME    XC    EARLY(2),EARLY
        OI    STATUS,X'0C'
        BR    14
*
        DS    0D
FAILED  DC    X'0002000000000BAD'  waits, and takes no interruption
DONE    DC    X'0002000000000000'  the same, at 0
WAITING DC    X'FE02000000000000'  waits, open for all channels
TAKEN   DC    X'00000000',A(IOINT) no interruptions
WHOLE   DS    D                    a packed number
*
*       Channel programs.
SEEK0   CCW   X'07',HOME,X'20',6
SEEK1   CCW   X'07',ARM1,X'20',6
RDLABEL CCW   X'07',HOME,X'40',6
RDLAB1  CCW   X'31',LABELAT,X'40',5
        CCW   X'08',RDLAB1,0,0
        CCW   X'06',VOL1,0,80
FINDKEY CCW   X'07',ARM1,X'40',6
FINDK1  CCW   X'29',BAKER,X'40',8
        CCW   X'08',FINDK1,0,0
        CCW   X'06',RECORD,0,24
UPDATE  CCW   X'07',ARM1,X'40',6
UPDATE1 CCW   X'29',BAKER,X'40',8
        CCW   X'08',UPDATE1,0,0
        CCW   X'05',RECORD,0,24
FINDID  CCW   X'07',ARM1,X'40',6
FINDID1 CCW   X'31',SECOND,X'40',5
        CCW   X'08',FINDID1,0,0
        CCW   X'06',RECORD,0,24
FINDNONE CCW  X'07',ARM1,X'40',6
FINDN1  CCW   X'29',NOBODY,X'40',8
        CCW   X'08',FINDN1,0,0
        CCW   X'06',RECORD,0,24
SENSE   CCW   X'04',SENSED,0,6
FORMAT  CCW   X'07',ARM2,X'40',6
FORMAT1 CCW   X'31',ZERO,X'40',5
        CCW   X'08',FORMAT1,0,0
        CCW   X'1D',COUNT1,X'80',8  a count area, and on with
        CCW   0,DATA,X'40',20       its key and data
        CCW   X'1D',COUNT2,X'80',8
        CCW   0,DATA,X'40',20
        CCW   X'1D',COUNT3,X'80',8
        CCW   0,DATA,0,20
COUNTS  CCW   X'07',ARM2,X'40',6
COUNTS1 CCW   X'31',ZERO,X'40',5
        CCW   X'08',COUNTS1,0,0
        CCW   X'12',READ1,X'40',8
        CCW   X'12',READ2,X'40',8
        CCW   X'12',READ3,0,8
TYPE    CCW   X'09',0,0,0
*
*       Their arguments: arms are sent to bin, cylinder and head; identifiers are cylinder, head and record.
HOME    DC    X'000000000000'
ARM1    DC    X'000000010000'
ARM2    DC    X'000000020000'
LABELAT DC    X'0000000003'
SECOND  DC    X'0001000002'
ZERO    DC    X'0002000000'
COUNT1  DC    X'0002000001040010'   identifier, key length, data length
COUNT2  DC    X'0002000002040010'
COUNT3  DC    X'0002000003040010'
DATA    DC    C'KEY DATA OF A RECORD'
BAKER   DC    C'BAKER   '
NOBODY  DC    C'NOBODY  '
ENDED   DC    X'0C00'               channel end and device end, and nothing else
LABELID DC    C'VOL1'
*
*       What is read.
READ1   DS    XL8
READ2   DS    XL8
READ3   DS    XL8
SENSED  DS    XL6
VOL1    DS    CL80
RECORD  DS    CL20
VISITS  DS    CL4
*
*       Messages: a length and a text.
M190    DC    C'190'
M191    DC    C'191'
MARMS   DC    AL1(L'TARMS)
TARMS   DC    C'BOTH ARMS HAVE ARRIVED'
MLABEL  DC    AL1(L'TLABEL)
TLABEL  DC    C'000 HOLDS VOLUME 000000'
MRECORD DC    AL1(L'TRECORD)
TRECORD DC    C'RECORD: 000000000000000000000000'
MNONE   DC    AL1(L'TNONE)
TNONE   DC    C'NOBODY: NO RECORD FOUND'
MFORMAT DC    AL1(L'TFORMAT)
TFORMAT DC    C'CYLINDER 2 HEAD 0 FORMATTED WITH THREE RECORDS'
MDONE   DC    AL1(L'TDONE)
TDONE   DC    C'DONE'
*
*       What is kept.
        DS    0F
LINK    DS    F
LINK2   DS    F
RESIDENT DS   H
EARLY   DS    H
STATUS  DS    XL2
WANTED  DS    X
SEEN    DS    X
        END
