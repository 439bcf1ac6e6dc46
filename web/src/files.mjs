// @ts-check
// Files in and out: what is dropped or picked, unpacked where it is a gzip, and what is saved.

import { amount, counted } from './dom.mjs';
import { collected, through, TooLong } from './packed.mjs';

export const MOST_BYTES = 512 * 1024 * 1024;
const MOST_FILES = 8;
const GZIP = [0x1F, 0x8B];

/**
 * Files in the order of an image's parts: by name, with numbers as numbers.
 * @param {Iterable<File>} files
 * @returns {File[]}
 */
export const inOrder = files => [...files].sort((a, b) => a.name.localeCompare(b.name, 'en', {numeric: true}));

/**
 * Lets the browser save bytes under a name.
 * @param {string} name
 * @param {BlobPart} bytes
 */
export function saveAs(name, bytes) {
  const link = document.createElement('a');
  link.href = URL.createObjectURL(new Blob([bytes], { type: 'application/octet-stream' }));
  link.download = name;
  link.click();
  setTimeout(() => URL.revokeObjectURL(link.href), 60000);
}

/**
 * Files dropped on the page; `over` while something is held above it.
 * @param {(files: File[]) => void} dropped
 */
export function listenForDrops(dropped) {
  for (const it of ['dragenter', 'dragover']) {
    addEventListener(it, event => {
      event.preventDefault();
      document.body.classList.add('over');
    });
  }
  addEventListener('dragleave', event => {
    if (!event.relatedTarget) document.body.classList.remove('over');
  });
  addEventListener('drop', event => {
    event.preventDefault();
    document.body.classList.remove('over');
    const files = inOrder(event.dataTransfer?.files ?? []);
    if (files.length) dropped(files);
  });
}

/**
 * A file that was picked, unpacked where it is a gzip.
 * @param {File} file
 * @returns {Promise<{name: string, blob: Blob}>}
 */
async function unpackedFile(file) {
  const first = new Uint8Array(await file.slice(0, GZIP.length).arrayBuffer().catch(() => { throw new Error(`${file.name} could not be read.`); }));
  if (GZIP.some((it, at) => first[at] !== it)) return { name: file.name, blob: file };
  const parts = await collected(through(file, 'DecompressionStream', 'gzip'), MOST_BYTES).catch(fault => {
    throw new Error(`${file.name}: ${fault instanceof TooLong ? `unpacked it has ${fault.message}, which this page does not take.` : 'its gzip is damaged.'}`);
  });
  return { name: file.name.replace(/\.gz$/i, ''), blob: new Blob(/** @type {BlobPart[]} */ (parts)) };
}

/**
 * The refusal of an image that is too large.
 * @param {string} name
 * @param {string} bytes how large it is, in words
 */
export function tooLarge(name, bytes) {
  return new Error(`${name}: ${bytes}. This page takes images of up to ${counted(MOST_BYTES)} bytes; the program dasd reads larger ones.`);
}

/**
 * The files of one image by their names, unpacked where they are gzips. An Error says that they are too many, too large, or damaged.
 * @param {File[]} list
 * @returns {Promise<Map<string, Blob>>}
 */
export async function unpackedFiles(list) {
  const bytes = list.reduce((sum, it) => sum + it.size, 0), name = list.map(it => it.name).join(' + ');
  if (list.length > MOST_FILES) throw new Error(`${amount(list.length, 'file')}: an image has at most ${MOST_FILES}.`);
  if (bytes > MOST_BYTES) throw tooLarge(name, `${counted(bytes)} bytes`);
  const files = new Map();
  for (const it of list) {
    const unpacked = await unpackedFile(it);
    files.set(unpacked.name, unpacked.blob);
  }
  return files;
}
