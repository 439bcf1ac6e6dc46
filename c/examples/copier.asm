* A standalone copier, which the load function brings in from the drive that it was loaded from. It copies the six records of a track of
* 191, on channel 1, to a pack on 290, on channel 2: while one record is read, the one before it is written. It asks the operator for a
* second pack, and copies them there once more. Then it tries what storage protection and Halt I/O are for.
*
* The channel program that reads is a ring of two words. Each asks for an interruption as it begins (PoO, 'Program-Controlled
* Interruption'), which says that the record before has come; and while the word works, the other one is turned to the record behind it.
*
* Registers: 1 a channel program, 2 a device's address, 12 the base, 13 and 14 links.
COPIER  START X'1000'
CSW     EQU   64
CAW     EQU   72
PGMOLD  EQU   40
IOOLD   EQU   56
IONEW   EQU   120
PGMNEW  EQU   104
CONSOLE EQU   9                    the console's address
SOURCE  EQU   X'191'               the drive that is read from
COPY    EQU   X'290'               the drive that is written to
BUFFER  EQU   X'4000'              the records, as they were read
BACK    EQU   X'5000'              the records of the copy
        BALR  12,0
        USING *,12
        MVC   PGMNEW(8),FAILED     a program interruption stops the processor
        MVC   IONEW(8),TAKEN       an input/output interruption goes on at IOINT
*
*       Both arms are sent off, on a channel each. The one that starts later has less far to go, and arrives first.
        LA    1,SEEKFAR
        LA    2,SOURCE
        BAL   14,STARTIO
        LA    1,SEEKNEAR
        LA    2,COPY
        BAL   14,STARTIO
        BAL   14,ARRIVAL
        CH    2,IOOLD+2
        BNE   BAD
        LA    2,SOURCE
        BAL   14,ARRIVAL
        CH    2,IOOLD+2
        BNE   BAD
        LA    3,MARMS
        BAL   13,PRINT
*
        LA    2,SOURCE
        BAL   13,LABEL
        LA    2,COPY
        BAL   13,LABEL
        BAL   13,COPYALL
        BAL   13,COMPARE
*
*       The operator is asked for another pack. Its drive tells with a device end of its own that it is ready.
        LA    3,MMOUNT
        BAL   13,PRINT
        LA    2,COPY
        BAL   14,WAIT
        CH    2,IOOLD+2
        BNE   BAD
        CLC   CSW+4(2),READY
        BNE   BAD
        BAL   13,LABEL
        BAL   13,COPYALL
        BAL   13,COMPARE
*
*       A program with key 2 may not store into a block with key 3.
        L     5,OWNED
        MVI   0(5),0
        LA    4,X'30'
        SSK   4,5
        LA    1,INTO
        O     1,KEY2
        LA    2,SOURCE
        BAL   14,DOIO
        CLC   CSW+4(2),CHECKED
        BNE   BAD
        CLI   0(5),0
        BNE   BAD
*
*       Nor may the processor with key 3 store into one with key 0: but into its own.
        MVC   PGMNEW(8),CAUGHT
        LPSW  KEYED
KEY3    MVI   0(5),C'X'
        MVI   BOTH,X'FF'
        B     BAD
PGMINT  CLI   PGMOLD+3,4
        BNE   BAD
        CLI   BOTH,1
        BNE   BAD
        CLI   0(5),C'X'
        BNE   BAD
        MVC   PGMNEW(8),FAILED
        LA    3,MKEYS
        BAL   13,PRINT
*
*       A channel program without an end is halted.
        LA    1,ENDLESS
        LA    2,COPY
        BAL   14,STARTIO
        LA    3,100
SPIN    BCT   3,SPIN
        TCH   X'200'
        BC    13,BAD               it runs still
        HIO   0(2)
        BC    13,BAD               it ran
        BAL   14,WAIT
        CH    2,IOOLD+2
        BNE   BAD
        LA    3,MHALTED
        BAL   13,PRINT
        LA    3,MDONE
        BAL   13,PRINT
        LPSW  DONE
BAD     LPSW  FAILED
*
*       Copies the records. Register 5 counts those that have come, 6 the interruptions that were asked for, 7 the records that are written
*       or being written, and 8 is 1 while one is. Link in 13.
COPYALL ST    13,LINK
        SR    5,5
        SR    6,6
        SR    7,7
        SR    8,8
        MVI   BOTH,0
        MVC   RING1(8),RING0
        LA    1,READ
        LA    2,SOURCE
        BAL   14,STARTIO
NEXT    BAL   14,WAIT
        LA    2,SOURCE
        CH    2,IOOLD+2
        BE    READING
        LA    2,COPY
        CH    2,IOOLD+2
        BNE   BAD
        BAL   14,GOOD              a record is written
        SR    8,8
        B     WRITE
READING TM    CSW+5,X'7F'
        BNZ   BAD
        TM    CSW+5,X'80'
        BZ    ENDING
        BAL   14,ASKED
ENDING  TM    CSW+4,X'08'
        BZ    WRITE
        LA    5,6                  at channel end all have come
WRITE   LTR   8,8
        BNZ   NEXT
        CR    7,5
        BE    WRITTEN
        STC   7,BEHIND+4           the next record is written behind this one
        LR    9,7
        MH    9,LENGTH
        A     9,BUFAT
        ST    9,WRITE2
        LA    7,1(7)
        STC   7,COUNT+4
        LA    8,1
        LA    1,WRITE0
        LA    2,COPY
        BAL   14,STARTIO
        TCH   X'100'
        BC    13,NEXT
        MVI   BOTH,1               channel 1 works too
        B     NEXT
WRITTEN CH    7,SIX
        BNE   NEXT
        CLI   BOTH,1
        BNE   BAD
        LA    9,240(7)             a digit
        STC   9,TCOPIED
        LA    9,240(6)
        STC   9,TCOPIED+18
        LA    3,MCOPIED
        BAL   13,PRINT
        LA    3,MBOTH
        BAL   13,PRINT
        L     13,LINK
        BR    13
*
*       A word of the ring begins, and those before it have ended: the other word is turned to the record behind. The last one's has no
*       further word behind it. Link in 14.
ASKED   LR    5,6
        LA    6,1(6)
        CH    6,SIX
        BCR   8,14
        LR    9,6
        MH    9,LENGTH
        A     9,RING0
        LA    10,RING1
        LR    11,6
        SLL   11,31
        LTR   11,11
        BZ    TURN
        LA    10,RING2
TURN    ST    9,0(10)
        MVI   4(10),X'48'          command chaining, and an interruption
        CH    6,FIVE
        BCR   7,14
        MVI   4(10),X'08'          an interruption alone
        BR    14
*
*       The records of the copy are read, and compared with those that were copied. Link in 13.
COMPARE ST    13,LINK
        LA    1,READBACK
        LA    2,COPY
        BAL   14,DOIO
        BAL   14,GOOD
        LA    3,6
        L     4,BUFAT
        L     5,BACKAT
COMPARE1 CLC  0(256,4),0(5)
        BNE   BAD
        CLC   256(144,4),256(5)
        BNE   BAD
        MVC   TLAST+6(23),0(5)
        XC    0(256,5),0(5)
        XC    256(144,5),256(5)
        LA    4,400(4)
        LA    5,400(5)
        BCT   3,COMPARE1
        LA    3,MLAST
        BAL   13,PRINT
        L     13,LINK
        BR    13
*
*       Reads the label of the volume on the drive in register 2, and prints its serial number: link in 13.
LABEL   ST    13,LINK
        LA    1,RDLABEL
        BAL   14,DOIO
        BAL   14,GOOD
        CLC   VOL1(4),LABELID
        BNE   BAD
        MVC   TLABEL(3),M191
        LA    3,SOURCE
        CR    2,3
        BE    LABEL1
        MVC   TLABEL(3),M290
LABEL1  MVC   TLABEL+17(6),VOL1+4
        LA    3,MLABEL
        BAL   13,PRINT
        L     13,LINK
        BR    13
*
*       Prints the message that register 3 leads to: its length in a byte, and its text. Link in 13.
PRINT   SR    4,4
        IC    4,0(3)
        STH   4,TYPE+6
        LA    3,1(3)
        ST    3,TYPE
        MVI   TYPE,X'09'
        LA    1,TYPE
        LA    2,CONSOLE
        BAL   14,DOIO
        BAL   14,GOOD
        BR    13
*
*       The program ended without a fault: link in 14.
GOOD    CLC   CSW+4(2),ENDED
        BNE   BAD
        BR    14
*
*       Starts a channel program and waits for its end, while no other runs: link in 14.
DOIO    ST    14,LINK2
        BAL   14,STARTIO
DOIO1   BAL   14,WAIT
        CH    2,IOOLD+2
        BNE   BAD
        TM    CSW+4,X'04'
        BZ    DOIO1
        L     14,LINK2
        BR    14
*
*       Starts a channel program: link in 14.
STARTIO ST    1,CAW
        SIO   0(2)
        BCR   8,14
        B     BAD
*
*       Waits for the next device end: link in 14.
ARRIVAL ST    14,LINK2
ARRIVAL1 BAL  14,WAIT
        TM    CSW+4,X'04'
        BZ    ARRIVAL1
        L     14,LINK2
        BR    14
*
*       Waits for an interruption: link in 14. The program takes none anywhere else.
WAIT    LPSW  WAITING
IOINT   TM    CSW+4,X'02'          unit check
        BO    BAD
        BR    14
*
        DS    0D
FAILED  DC    X'0002000000000BAD'  waits, and takes no interruption
DONE    DC    X'0002000000000000'  the same, at 0
WAITING DC    X'FE02000000000000'  waits, open for all channels
TAKEN   DC    X'00000000',A(IOINT) no interruptions
CAUGHT  DC    X'00000000',A(PGMINT)
KEYED   DC    X'00300000',A(KEY3)  key 3
*
*       Channel programs.
SEEKFAR CCW   X'07',FAR,X'20',6
SEEKNEAR CCW  X'07',NEAR,X'20',6
RDLABEL CCW   X'07',HOME,X'40',6
RDLAB1  CCW   X'31',LABELAT,X'40',5
        CCW   X'08',RDLAB1,0,0
        CCW   X'06',VOL1,0,80
READ    CCW   X'07',FAR,X'40',6
READ1   CCW   X'31',FIRST,X'40',5
        CCW   X'08',READ1,0,0
RING1   CCW   X'06',BUFFER,X'48',400
RING2   CCW   X'06',BUFFER,X'48',400
        CCW   X'08',RING1,0,0
RING0   CCW   X'06',BUFFER,X'48',400 the ring's first word, as it begins
WRITE0  CCW   X'07',OUT,X'40',6
WRITE1  CCW   X'31',BEHIND,X'40',5
        CCW   X'08',WRITE1,0,0
        CCW   X'1D',COUNT,X'80',8   a count area, and on with
WRITE2  CCW   0,BUFFER,0,400        its data
READBACK CCW  X'07',OUT,X'40',6
BACK1   CCW   X'31',COPIED,X'40',5
        CCW   X'08',BACK1,0,0
        CCW   X'06',BACK,X'40',400
        CCW   X'06',BACK+400,X'40',400
        CCW   X'06',BACK+800,X'40',400
        CCW   X'06',BACK+1200,X'40',400
        CCW   X'06',BACK+1600,X'40',400
        CCW   X'06',BACK+2000,0,400
INTO    CCW   X'07',FAR,X'40',6
INTO1   CCW   X'31',FIRST,X'40',5
        CCW   X'08',INTO1,0,0
        CCW   X'06',X'6000',0,400
ENDLESS CCW   X'03',0,X'40',1
        CCW   X'08',ENDLESS,0,0
TYPE    CCW   X'09',0,0,0
*
*       Their arguments: arms are sent to bin, cylinder and head; identifiers are cylinder, head and record.
HOME    DC    X'000000000000'
FAR     DC    X'000000050000'
NEAR    DC    X'000000010000'
OUT     DC    X'000000020000'
LABELAT DC    X'0000000003'
FIRST   DC    X'0005000001'
BEHIND  DC    X'0002000000'
COPIED  DC    X'0002000001'
COUNT   DC    X'0002000000000190'   identifier, no key, 400 bytes of data
ENDED   DC    X'0C00'               channel end and device end, and nothing else
READY   DC    X'0400'               device end alone
CHECKED DC    X'0C10'               protection check
LABELID DC    C'VOL1'
*
*       Numbers.
        DS    0F
BUFAT   DC    A(BUFFER)
BACKAT  DC    A(BACK)
OWNED   DC    X'00006000'           a block of its own
KEY2    DC    X'20000000'
LENGTH  DC    H'400'
FIVE    DC    H'5'
SIX     DC    H'6'
*
*       Messages: a length and a text.
M191    DC    C'191'
M290    DC    C'290'
MARMS   DC    AL1(L'TARMS)
TARMS   DC    C'290 HAS ARRIVED, AND 191 BEHIND IT'
MLABEL  DC    AL1(L'TLABEL)
TLABEL  DC    C'000 HOLDS VOLUME 000000'
MCOPIED DC    AL1(L'TCOPIED)
TCOPIED DC    C'0 RECORDS COPIED, 0 INTERRUPTIONS ASKED FOR'
MBOTH   DC    AL1(L'TBOTH)
TBOTH   DC    C'BOTH CHANNELS WORKED AT ONCE'
MLAST   DC    AL1(L'TLAST)
TLAST   DC    C'LAST: 00000000000000000000000'
MMOUNT  DC    AL1(L'TMOUNT)
TMOUNT  DC    C'MOUNT COPY02 ON 290'
MKEYS   DC    AL1(L'TKEYS)
TKEYS   DC    C'KEYS PROTECT STORAGE'
MHALTED DC    AL1(L'THALTED)
THALTED DC    C'A PROGRAM WITHOUT AN END IS HALTED'
MDONE   DC    AL1(L'TDONE)
TDONE   DC    C'DONE'
*
*       What is read and kept.
VOL1    DS    CL80
        DS    0F
LINK    DS    F
LINK2   DS    F
BOTH    DS    X
        END
