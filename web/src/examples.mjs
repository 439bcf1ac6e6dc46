// @ts-check
// The examples of out/examples.json, which examples.py makes: decks of the pages, the vectors of the conformance suite, and the decks in
// which Hercules differs, with what each emulator answers.

/**
 * Images by name: base64 of their bytes under gzip.
 * @typedef {Record<string, string>} Images
 */
/** @typedef {{ unit: number, images: string[] } | { unit: number, model: number, cylinders: number }} ExampleVolume */
/**
 * @typedef {object} Example
 * @property {'page' | 'vector' | 'hercules'} kind
 * @property {string} name
 * @property {string} group the file of the vectors; the page that has the deck
 * @property {string} about
 * @property {number} channel
 * @property {number} storage
 * @property {ExampleVolume[]} volumes
 * @property {string} deck its text; of a vector with bytes that are no text, one character of U+0000 to U+00FF for each byte
 * @property {string[]} answers what must come of each event, in order
 * @property {(string | null)[]} [hercules] for each event what Hercules 3.13 answers, where that is another, or else null
 * @property {string} [fault] the deck is refused with this text
 */
/** @typedef {{ images: Images, examples: Example[] }} Examples */

/**
 * The bytes of an image.
 * @param {Images} images
 * @param {string} name
 * @returns {Promise<Uint8Array>}
 */
export async function imageOf(images, name) {
  const Gunzip = /** @type {any} */ (globalThis).DecompressionStream;
  const packed = Uint8Array.from(atob(images[name]), it => it.charCodeAt(0));
  const stream = new Blob([packed]).stream().pipeThrough(new Gunzip('gzip'));
  return new Uint8Array(await new Response(stream).arrayBuffer());
}

/**
 * The drives of an example, for a Stepper.
 * @param {Images} images
 * @param {Example} example
 * @returns {Promise<({ address: number, files: Map<string, Uint8Array> } | { address: number, model: number, cylinders: number })[]>}
 */
export async function drivesOf(images, example) {
  return Promise.all(example.volumes.map(async volume => {
    const address = example.channel << 8 | volume.unit;
    if (!('images' in volume)) return { address, model: volume.model, cylinders: volume.cylinders };
    /** @type {Map<string, Uint8Array>} */
    const files = new Map();
    for (const name of volume.images) files.set(name, await imageOf(images, name));
    return { address, files };
  }));
}
