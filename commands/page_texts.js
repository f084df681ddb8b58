// Reads a page of a script from standard input, and prints the texts that the page's own script shows of a line, one on each line.
// Usage: node commands/page_texts.js LINE < PAGE
'use strict';
const page = require('fs').readFileSync(0, 'utf8');
const between = (start, end) => page.slice(page.indexOf(start), page.indexOf(end));

// An element keeps its parts: texts and elements.
const document = {
  createElement: () => ({
    parts: [],
    append(...parts) { this.parts = parts; },
    set textContent(text) { this.parts = [text]; },
  }),
};
const texts = part => typeof part === 'string' ? [part] : part.parts.flatMap(texts);

const data = JSON.parse(between("id='data'>", '</script>\n<script>').slice("id='data'>".length));
const show = new Function('document', between('// Elements.', '// Elements of the picture') + 'return [show_waits, show_ways, show_locks];');
const [show_waits, show_ways, show_locks] = show(document);
const {waits, why, locks} = data.find(it => String(it.line) === process.argv[2]);
console.log([show_waits(waits), show_ways(why), show_locks(locks)].flatMap(texts).join('\n'));
