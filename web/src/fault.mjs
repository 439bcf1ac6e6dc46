// @ts-check
// Why a call of one of the modules was refused, or did not come to its end.

// c/interface.toml: begin
/** The faults of `enum dasd_fault` in c/dasd.h, by number: the name there without DASD_, and what it says. */
const FAULTS = /** @type {Record<number, [string, string]>} */ ({
  [-1]: ['NOTHING_HELD', 'the handle holds nothing: it was not made, or was freed'],
  [-2]: ['IN_USE', 'the handle holds something already'],
  [-3]: ['NO_MEMORY', 'memory was refused'],
  [-4]: ['OUTSIDE_STORAGE', 'a byte lies outside main storage'],
  [-5]: ['BAD_SIZE', 'storage has a multiple of 2,048 bytes, from 4,096 to 16,777,216'],
  [-6]: ['BAD_CHANNELS', 'the set is not one of the channels 0 to 6'],
  [-7]: ['BAD_KEY', 'a storage key is 0 to 15'],
  [-8]: ['BAD_MODEL', "a drive's model is 2311 or 2314"],
  [-9]: ['NO_CYLINDERS', 'a volume has 1 to 65,535 cylinders'],
  [-10]: ['NO_CHANNEL', 'there is no channel of this number'],
  [-11]: ['NO_DRIVE', 'no drive with this address is attached'],
  [-12]: ['ADDRESS_TAKEN', 'a drive with this address is attached'],
  [-13]: ['FULL', 'eight drives are attached to this channel'],
  [-14]: ['NO_FILES', 'an image has at least one file'],
  [-15]: ['TOO_MANY_FILES', 'an image has at most eight files'],
  [-16]: ['NO_FILE', "the drive's image has no such file"],
  [-17]: ['PROGRAM_RUNS', 'a channel program runs'],
  [-18]: ['ENDING_PENDS', "the channel status word of this drive's program is not yet stored"],
  [-19]: ['DEVICE_END_OWED', "this drive's arm moves, or has arrived and has not interrupted"],
  [-20]: ['NO_STORAGE', 'the handle owns no main storage: each call is lent it'],
  [-21]: ['BAD_BLOCKS', 'main storage has one key for each block of 2,048 bytes'],
  [-22]: ['OTHER_SIZE', 'the channels are for main storage of another size'],
  [-23]: ['NO_PROGRAM', 'no channel program runs on this channel'],
  [-24]: ['NO_ROOM', 'what is to be written may have more bytes than there is room for'],
  [-25]: ['BAD_MOMENT', 'there is no such moment, or its call answers no such thing'],
  [-26]: ['BAD_UNTIL', 'nothing is waited for by such a bit'],
  [-27]: ['NOT_OWED', 'a saved channel status word is no ending that its channel owes'],
  [-32]: ['NOT_CKD_P370', 'not a CKD_P370 image'],
  [-33]: ['COMPRESSED', 'a compressed image, or a shadow file'],
  [-34]: ['DEVICE_TYPE', 'neither a 2311 nor a 2314'],
  [-35]: ['HEADS', "the number of heads is not the drive's"],
  [-36]: ['TRACK_SIZE', 'a track of the drive may not fit the track size'],
  [-37]: ['SPLIT', 'the files are not those of one image, in order'],
  [-38]: ['LENGTH', "a file's length is not that of an image"],
  [-39]: ['STORE', 'a file could not be read or written; no file in memory does so'],
  [-40]: ['NO_SAVED_STATE', 'not a saved state'],
  [-41]: ['OTHER_VERSION', 'a saved state of another version'],
  [-42]: ['SAVED_LENGTH', 'a saved state that is cut short, or too long'],
  [-43]: ['SAVED_SUM', 'a saved state that was changed: its checksum does not fit'],
  [-44]: ['NOT_SOUND', 'a field of a saved state has a value that none has'],
  [-45]: ['OTHER_CHANNELS', 'a saved state of other channels'],
  [-46]: ['OTHER_DRIVES', 'a saved state of a channel with other drives'],
  [-47]: ['NO_TRACK', 'a drive was saved at a track that its volume does not have'],
});
// c/interface.toml: end

/** A refusal. `name` is the fault's: one of c/dasd.h without DASD_, or TRAPPED, REFUSED, BAD_REQUEST. */
export class Fault extends Error {
  /**
   * @param {string} name
   * @param {string} text
   * @param {number} [code] the number in c/dasd.h, where it is one of its faults
   */
  constructor(name, text, code) {
    super(text);
    this.name = name;
    this.code = code;
  }

  /**
   * The fault of a number that a call of the library answered.
   * @param {number} code
   */
  static of(code) {
    const [name, text] = FAULTS[code] ?? ['UNKNOWN', `the library answered ${code}`];
    return new Fault(name, text, code);
  }
}

/**
 * Whether this was thrown by a module that stopped: a trap, or a stack that is full, which Firefox tells as an InternalError.
 * @param {unknown} thrown
 */
export function isTrap(thrown) {
  const { name, message } = /** @type {Error} */ (thrown ?? {});
  return thrown instanceof WebAssembly.RuntimeError || (name === 'RangeError' && /call stack/.test(message)) || name === 'InternalError';
}
