// @ts-check
// What this page is: its version, where it comes from, and the licences of all the code that is in it.

import { button, find, make } from './dom.mjs';
import { unpacked } from './engine.mjs';

/** @typedef {{version: string, commit: string, home: string, notices: string}} Origin `notices`: the project's licence, and those of others */

/** The page on its site has the documentation beside it. */
const ON_SITE = /\/try\/(?:index\.html)?$/;

/** Opens the dialog. */
export async function openAbout() {
  const { version, commit, home, notices } = /** @type {Origin} */ (JSON.parse(new TextDecoder().decode(await unpacked('origin.json'))));
  const dialog = /** @type {HTMLDialogElement} */ (find('origin')), link = (/** @type {string} */ href, /** @type {string} */ text) => make('a', { href, rel: 'noreferrer' }, text);
  const links = [link(home, 'Source and releases'), ON_SITE.test(location.pathname) && link('../index.html', 'Documentation'), ON_SITE.test(location.pathname) && link('../docs/WEB.html', 'About this page')];
  dialog.replaceChildren(
    make('div', { class: 'bar' }, make('h2', { id: 'origin-title' }, `Sixambra ${version}`), make('span', { class: 'soft mono' }, commit), make('span', { class: 'grow' }),
      button('Close', () => dialog.close())),
    make('div', { class: 'body' },
      make('p', {}, 'Up to eight IBM 2311 and 2314 disk drives on each selector channel of a System/360, and the program dasd, as two modules of WebAssembly. Their code is proved; the compiler’s last step, this page’s scripts and the browser are trusted. Nothing leaves this page: it asks its own server for a pack that its address names, and no network for anything else.'),
      make('p', { class: 'links' }, ...links.filter(Boolean)), make('h3', {}, 'Licences of all code in this page'), make('pre', { tabindex: 0 }, notices)));
  dialog.showModal();
}
