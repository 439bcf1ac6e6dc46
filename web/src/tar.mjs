// @ts-check
// A tar archive of files in memory: headers of POSIX's ustar form, and before a name of more than 100 bytes its extended header `path`
// (POSIX, 'pax Interchange Format').

const BLOCK = 512;

/**
 * @param {Uint8Array} block
 * @param {number} at
 * @param {string} text
 */
function put(block, at, text) { block.set(new TextEncoder().encode(text), at); }

/**
 * A number in octal digits, with a zero byte behind.
 * @param {number} number
 * @param {number} room
 */
function octal(number, room) { return number.toString(8).padStart(room - 1, '0'); }

/**
 * @param {Uint8Array} name at most 100 bytes of it are taken
 * @param {number} length
 * @param {string} kind
 */
function header(name, length, kind) {
  const block = new Uint8Array(BLOCK);
  block.set(name.subarray(0, 100));
  put(block, 100, octal(0o644, 8));
  put(block, 108, octal(0, 8));
  put(block, 116, octal(0, 8));
  put(block, 124, octal(length, 12));
  put(block, 136, octal(0, 12));
  put(block, 148, ' '.repeat(8));
  put(block, 156, kind);
  put(block, 257, 'ustar\0' + '00');
  put(block, 148, octal(block.reduce((sum, it) => sum + it, 0), 7) + '\0 ');
  return block;
}

/**
 * Bytes up to a whole number of blocks.
 * @param {Uint8Array} bytes
 */
function filled(bytes) {
  const whole = new Uint8Array(Math.ceil(bytes.length / BLOCK) * BLOCK);
  whole.set(bytes);
  return whole;
}

/**
 * The extended header of a name. Its one record begins with its own length.
 * @param {Uint8Array} name
 */
function extended(name) {
  const bare = name.length + ' path=\n'.length;
  let length = bare + String(bare).length;
  if (bare + String(length).length > length) length++;
  const record = new Uint8Array(length);
  put(record, 0, `${length} path=`);
  record.set(name, length - name.length - 1);
  record[length - 1] = 10;
  return [header(new TextEncoder().encode('name'), length, 'x'), filled(record)];
}

/**
 * @param {Map<string, Uint8Array>} files
 * @returns {Uint8Array}
 */
export function tarOf(files) {
  /** @type {Uint8Array[]} */
  const parts = [];
  for (const [name, bytes] of files) {
    const spelled = new TextEncoder().encode(name);
    if (spelled.length > 100) parts.push(...extended(spelled));
    parts.push(header(spelled, bytes.length, '0'), filled(bytes));
  }
  parts.push(new Uint8Array(2 * BLOCK));
  const whole = new Uint8Array(parts.reduce((sum, it) => sum + it.length, 0));
  let at = 0;
  for (const part of parts) {
    whole.set(part, at);
    at += part.length;
  }
  return whole;
}
