// Runs the script of a status page, read from standard input, in the least of a document that it needs, with takes made
// up here; prints the takes that it shows: as it is opened, sorted by a column once, twice and three times, filtered by
// two words, and of ten thousand.
import { readFileSync } from 'node:fs';
import vm from 'node:vm';

const script = readFileSync(0, 'utf8').match(/<script>([^]*)<\/script>/)[1];

class Element {
    constructor(kind) {
        Object.assign(this, { kind, children: [], dataset: {}, className: '', value: '' });
    }
    append(...content) {
        this.children.push(...content);
    }
    replaceChildren(...content) {
        this.children = content;
    }
}

const made = (count) => Array.from({ length: count }, (_, n) => ({
    name: 'take-' + n, state: ['closed', 'open', 'unopened'][n % 3], rate: 48000, bits: 24, channels: 2,
    ms: (n * 7 % 10) * 1000, quiet_ms: n * 100, next: n, held: 0, refused: 0, delayed: 0, peer: n % 2 ? '10.0.0.1:5000' : null,
}));
const reported = (count, uptime_ms) => ({
    takes: made(count), left_out: [{ name: 'bad', cause: 'a cause' }], health: 'ready', uptime_ms, connections: 1, places: 64,
    ended: 0, resumed: 0, bytes: 5, messages: [], verdicts: [], notices: [],
});

const elements = {}, headings = Array.from({ length: 11 }, () => new Element('th')), waiting = [];
let answer = reported(9, 1000);
const document = {
    createElement: (kind) => new Element(kind),
    getElementById: (id) => (elements[id] ??= new Element(id)),
    querySelectorAll: () => headings,
    body: new Element('body'),
};
vm.runInNewContext(script, {
    document, location: { host: 'host:1' }, setTimeout: (call) => waiting.push(call),
    fetch: async () => ({ json: async () => structuredClone(answer) }),
});
const settle = () => new Promise((done) => setImmediate(done));
const rows = () => elements.takes.children.map((row) => row.children[0].children[0]);
const click = (place) => headings[place].children[0].onclick();
const shown = [];
const note = (what) => shown.push([what, rows(), elements.shown.value]);

await settle();
note('opened');
for (const times of [1, 2, 3]) {
    click(3);
    note('by length, ' + times + ': ' + headings[3].ariaSort);
}
elements.filter.value = 'open 10.0';
elements.filter.oninput();
note('filtered');
elements.filter.value = '';
answer = reported(10000, 2000);
waiting.pop()();
await settle();
console.log(JSON.stringify({
    shown, title: document.title, lost: document.body.className, left_out: elements.left_out.children[0].children[0],
    many: [rows().length, elements.shown.value],
}));
