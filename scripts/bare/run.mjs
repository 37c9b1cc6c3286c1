// The home of WebAssembly: plays a script over the module, as play.c does: node --experimental-wasm-memory64 run.mjs
// MODULE <SCRIPT.
import fs from 'fs';

const module = await WebAssembly.compile(fs.readFileSync(process.argv[2]));
if (WebAssembly.Module.imports(module).length > 0) throw new Error('the module has imports');
const {exports} = await WebAssembly.instantiate(module, {});
const memory = new DataView(exports.memory.buffer);
const PLACE = BigInt(memory.byteLength - 4096);
const PLACES = [0n, 72n, 144n, 216n, 224n, 232n, 512n, 1024n].map(it => PLACE + it);
const [KEPT, PORT, INBOX, LEN, LEFT, READINGS, BYTES, ROOM] = PLACES;
if (exports.__heap_base && exports.__heap_base.value > PLACE) throw new Error('the module uses the end of its memory');

const hex = (from, count) => Buffer.from(memory.buffer, Number(from), count).toString('hex') + ' ';
const number = place => Number(memory.getBigUint64(Number(place), true)) + ' ';
const queue = it => hex(it, Number(number(it + 64n)));
const set = (place, bytes) => new Uint8Array(memory.buffer).set(bytes, Number(place));

// Puts the bytes of a word into memory; their number.
function given(word) {
    const bytes = Buffer.from(word, 'hex');
    set(BYTES, bytes);
    return BigInt(bytes.length);
}

// The size of the room, which is filled with a pattern.
function clear(word) {
    set(ROOM, Buffer.alloc(512, 0xa5));
    memory.setBigUint64(Number(LEN), 9999n, true);
    return BigInt(word);
}

// Prints the readings.
function report(readings) {
    readings.forEach((reading, i) => memory.setUint32(Number(READINGS) + 4 * i, Number(reading), true));
    return `${exports.bare_report(KEPT, PORT, READINGS, BigInt(readings.length))} `;
}

const calls = {
    r: report,
    l: ([text]) => `${exports.bare_log(KEPT, PORT, BYTES, given(text))} `,
    s: () => `${exports.bare_resume(KEPT, PORT)} `,
    t: ([size]) => `${exports.bare_take(PORT, ROOM, clear(size))} ${hex(ROOM, Number(size))}`,
    p: ([text]) => `${exports.bare_put(INBOX, BYTES, given(text))} `,
    d: ([size]) => `${exports.bare_take(INBOX, ROOM, clear(size))} `,
    m: ([size]) => `${exports.bare_message(INBOX, ROOM, clear(size), LEN)} ${number(LEN)}${hex(ROOM, Number(size))}`,
    f: ([text]) => `${exports.bare_send(KEPT, PORT, BYTES, given(text))} `,
    g: ([size]) => `${exports.bare_receive(INBOX, ROOM, clear(size), LEN)} ${number(LEN)}${hex(ROOM, Number(size))}`,
    k: () => `${exports.bare_skip(INBOX, LEFT)} ${number(LEFT)}`,
    e: ([event]) => `${exports.bare_event(KEPT, PORT, Number(event))} `,
    c: ([text]) => `${exports.bare_copy(KEPT, PORT, BYTES, given(text))} `,
};

let out = '';
for (const line of fs.readFileSync(0, 'latin1').split('\n').filter(it => it)) {
    const [name, ...words] = line.split(' ');
    out += `${name} ${calls[name](words)}${queue(KEPT)}${queue(PORT)}${queue(INBOX)}\n`;
}
process.stdout.write(out);
