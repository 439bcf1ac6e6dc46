// @ts-check
// Bytes as they are printed: EBCDIC in code page 037.

/** The printed characters of code page 037; a period stands for all others. */
export const LETTERS = (() => {
  const rows = /** @type {Record<number, string>} */ ({
    4: ' .........¢.<(+|',
    5: '&.........!$*);¬',
    6: '-/........¦,%_>?',
    7: '.........`:#@\'="',
    8: '.abcdefghi......',
    9: '.jklmnopqr......',
    10: '.~stuvwxyz......',
    11: '^.........[]....',
    12: '{ABCDEFGHI......',
    13: '}JKLMNOPQR......',
    14: '\\.STUVWXYZ......',
    15: '0123456789......',
  });
  return Array.from({ length: 256 }, (_, it) => rows[it >> 4]?.[it & 15] ?? '.');
})();
