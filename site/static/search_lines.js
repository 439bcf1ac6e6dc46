// The pages' texts for the lines of a search, on a site that is opened as a file: PAGE_TEXTS has them by name (conf.py writes texts.js).
'use strict';

if (location.protocol === 'file:') {
  window.fetch = async url => {
    const main = document.createElement('div');
    main.setAttribute('role', 'main');
    main.textContent = PAGE_TEXTS[url.replace(/^\.\//, '').replace(/\.html$/, '')] ?? '';
    return { text: async () => main.outerHTML };
  };
}
