// @ts-check
// The programs that stand in the page to begin with, in words.

/** Where the first program begins, what it wants, and where it reads to. */
export const FIRST = { start: 0x400, cylinder: 95, head: 0, record: 3, buffer: 0x600, length: 80 };

/** The first program: it reads a record of the example pack's ledger. */
export const FIRST_TEXT = `* Reads a record of the example pack's ledger: cylinder 95, head 0, record 3.
         ORG   X'48'
         DC    A(START)             the channel address word: where the program is
         ORG   X'400'
START    SEEK  ARM,CC,6             the arm goes to cylinder 95, head 0
FIND     SIDEQ WANTED,CC,5          is the next record the one that is wanted?
         TIC   FIND                 no: back to the search; if it is, this is skipped
         RD    BUFFER,SLI,80        its first 80 bytes go to BUFFER
ARM      DC    X'0000005F0000'
WANTED   DC    X'005F000003'
         ORG   X'600'
BUFFER   DS    CL80
         SIO   190
         RUN
         INT
         SHOW  BUFFER 32
         SHOW  BUFFER+32 32
`;

/** For another pack: each that has a label has this record. */
export const LABEL_TEXT = `* Reads the volume label: key and data of record 3 on cylinder 0, head 0.
         ORG   X'48'
         DC    A(START)             the channel address word: where the program is
         ORG   X'400'
START    SEEK  ARM,CC,6             the arm goes to cylinder 0, head 0
FIND     SIDEQ WANTED,CC,5          is the next record the one that is wanted?
         TIC   FIND                 no: back to the search; if it is, this is skipped
         RDKD  BUFFER,SLI,84        its key and data go to BUFFER
ARM      DC    X'000000000000'
WANTED   DC    X'0000000003'
         ORG   X'600'
BUFFER   DS    CL84
         SIO   190
         RUN
         INT
         SHOW  BUFFER 32
         SHOW  BUFFER+32 32
`;

/** The words of the first program, each with what it does. */
export const FIRST_WORDS = [
  { word: 'SEEK', name: 'Seek', about: 'The arm goes to cylinder 95, head 0.' },
  { word: 'SIDEQ', name: 'Search', about: 'The next record passes under the head. Is it number 3, the one that is wanted? If so, the next word is skipped.' },
  { word: 'TIC', name: 'Transfer in channel', about: 'It was another one: back to the search.' },
  { word: 'RD', name: 'Read', about: 'The first 80 bytes of the record go to main storage: one line of a ledger, as long as a punched card.' },
];

/** What is short in these words. */
export const SHORT = { CC: 'command chaining: the channel goes on to the next word by itself', SLI: 'suppress length indication: that the record is longer is no error' };
