// What web/check does in the browser: node check.js TOP FOLDER [SCREEN.pbm]
//
// What is expected of a chart comes from the program `survey`, which oracle/compare holds to the original Rust; of the
// guide's screen, from the firmware; of frames, from the fixed list. Sentences, and an outline of four corners, are
// written by hand.
'use strict';

const { execFileSync } = require('node:child_process');
const fs = require('node:fs');
const { join } = require('node:path');
const { open } = require('./browser.js');
const { all } = require('./charts.js');

const [top, folder, screen] = process.argv.slice(2);
const page = join(top, 'target/web/planner.html');
const SIX = [1 / 16, 1, 4, 16, 64, 256];
const pause = (ms) => new Promise((done) => setTimeout(done, ms));

let checked = 0;
function must(holds, what) {
    checked++;
    if (holds) return;
    console.error(`web/check: ${what}`);
    process.exitCode = 1;
}
const same = (shown, expected, what) =>
    must(shown === expected, `${what}: shown ${JSON.stringify(shown)}, expected ${JSON.stringify(expected)}`);

// ---- what survey answers to a file

function answers(path) {
    const file = fs.openSync(path);
    const options = { stdio: [file, 'pipe', 'inherit'], maxBuffer: 1 << 24 };
    const lines = execFileSync(join(top, 'tools/run'), ['survey'], options).toString().trim().split('\n')
        .map((line) => Buffer.from(line, 'hex'));
    fs.closeSync(file);
    const points = (line) => Array.from({ length: line.readUInt16BE(2) }, (none, k) =>
        [line.readInt16BE(4 + 4 * k), line.readInt16BE(6 + 4 * k)]);
    const refused = lines.find((line) => line[1] !== 0);
    if (refused !== undefined) return { number: refused[1] };
    const [walked, simple, numbers] = lines;
    return {
        number: 0,
        walked: points(walked),
        points: points(simple),
        numbers: Array.from({ length: numbers.readUInt16BE(2) }, (none, k) => numbers.readDoubleBE(4 + 8 * k)),
    };
}

const keptAt = (answer, tolerance) => answer.points.filter((point, k) => answer.numbers[k] > tolerance);
const many = (n) => n.toLocaleString('en-GB');
const place = (point) => `(${point.join(', ')})`;
const list = (points) => points.map((point) => point.join(',')).join(' ');

// ---- the page, as a planner has it

class Planner {
    constructor(browser, room) {
        Object.assign(this, { browser, room });
    }

    write(name, bytes) {
        fs.writeFileSync(join(this.room, name), bytes);
    }

    text(id) {
        return this.browser.run('return document.getElementById(arguments[0]).textContent', id);
    }

    async begin() {
        await this.browser.size(1366, 1000);
        await this.browser.go(`file://${page}`);
        const ready = () => this.browser.run('return document.documentElement.dataset.ready');
        for (let k = 0; k < 100 && await ready() !== 'yes'; k++) await pause(20);
        same(await this.text('message'), 'No survey yet.', 'at the start');
    }

    // What was said last: a note, or the message of the chart.
    async said() {
        return await this.text('note') || this.text('message');
    }

    // Hands a file over by a button, and waits until the page has said something of it.
    async hand(id, name) {
        await this.browser.run(`
            document.getElementById('message').textContent = document.getElementById('note').textContent = '';`);
        await this.browser.type(id, join(this.room, name));
        for (let k = 0; k < 500 && await this.said() === ''; k++) await pause(10);
        await pause(30);
        return this.said();
    }

    // Sets a field or a list, or moves the slider, as a hand would.
    set(id, value, event = 'change') {
        return this.browser.run(`
            const field = document.getElementById(arguments[0]);
            field.value = arguments[1];
            field.dispatchEvent(new Event(arguments[2]));`, id, String(value), event);
    }

    setTolerance(tolerance) {
        return this.set('exact', tolerance);
    }

    async clean(what) {
        const said = await this.browser.console();
        must(said.length === 0, `${what}: the console says ${JSON.stringify(said)}`);
    }

    async saved(button, name) {
        await this.browser.click(button);
        for (let k = 0; k < 200 && !fs.existsSync(join(this.room, name)); k++) await pause(20);
        await pause(50);
        return fs.readFileSync(join(this.room, name));
    }

    async picture(name) {
        fs.writeFileSync(join(folder, name), await this.browser.picture());
    }
}

// Each file is shown, or refused, as survey answers.
async function shows(planner, held) {
    for (const [name, bytes] of held) {
        planner.write(name, bytes);
        const answer = answers(join(planner.room, name));
        const before = await planner.text('outline-says');
        await planner.hand('#tonight', name);
        await planner.clean(name);
        if (answer.number !== 0) {
            const unread = answer.number === 1 || answer.number === 12;
            const message = await planner.text(unread ? 'note' : 'message');
            must(message.startsWith(`${name}: `) && message.includes(`(refusal ${answer.number}).`),
                `${name}: survey refuses it by ${answer.number}, the page says ${message}`);
            same(await planner.text('outline-says'), unread ? before : '–', `${name}, which is refused`);
            continue;
        }
        const start = place(answer.walked[0]);
        const message = await planner.text('message');
        must(message.startsWith(`${name}: the first bank, from ${start}.`), `${name}: says ${message}`);
        same(await planner.text('outline-says'), `${many(answer.walked.length)} points from ${start}, ` +
            `${many(answer.points.length)} of them left when simplified`, `${name}, its outline`);
        for (let k = 0; k < SIX.length; k++) {
            const kept = keptAt(answer, SIX[k]);
            const lost = answer.numbers.filter((number) => number <= SIX[k] && (k === 0 || number > SIX[k - 1])).length;
            const caption = await planner.browser.run(
                'return document.querySelectorAll("figcaption")[arguments[0]].lastChild.textContent', k);
            same(caption, `${many(kept.length)} points` + (lost > 0 ? `, ${many(lost)} dropped` : ''), `${name}, zoom ${k}`);
            await planner.setTolerance(SIX[k]);
            same(await planner.text('points-list'), list(kept), `${name}, the points of zoom ${k}`);
        }
    }
    console.log(`${held.length} files: shown, or refused, as survey answers`);
}

// What is refused is said in words, and each sentence is true of its file.
async function refuses(planner, unread) {
    const says = async (name, words) => same(await planner.hand('#tonight', name), `${name}: ${words}`, name);
    await planner.hand('#tonight', 'bank.pbm');
    for (const [base, bytes, number, words] of unread) {
        const name = `${base}.pbm`;
        planner.write(name, bytes);
        await says(name, `${words} (refusal ${number}). bank.pbm is still shown.`);
        same(answers(join(planner.room, name)).number, number, `${name}, by survey`);
    }
    await says('blank.pbm', 'this chart is blank: it has no sand, and so no outline (refusal 8).');
    await says('stuck.pbm', 'the walk from (0, 0) never comes back to its start (refusal 9). Cells touch only at a corner at ' +
        '(1, 1) and at 1 other place, ringed on the chart: fill or clear a cell there, and load the chart again.');
    await planner.picture('stuck.png');
    await planner.hand('#tonight', 'comb.pbm');
    must(/^comb.pbm: this outline has [0-9]{2},[0-9]{3} points, and 4,096 is the most that a guide holds \(refusal 2\)\. /
        .test(await planner.text('message')), `comb.pbm: ${await planner.text('message')}`);
    await planner.hand('#tonight', 'corner.pbm');
    await planner.set('bank', await planner.browser.run(
        'return [...document.getElementById("bank").options].find((one) => one.text.endsWith("from (3, 3)")).value'));
    same(await planner.text('message'), 'corner.pbm: the bank from (3, 3). The outline passes 3 places where cells touch only ' +
        'at a corner, the first at (1, 1), ringed on the chart: it may leave out a part of this bank, or take in another.',
    'a walk past corners');
    const begun = performance.now();
    await planner.hand('#tonight', 'board.pbm');
    must(performance.now() - begun < 3000, `a checkerboard of 512 by 512 took ${performance.now() - begun} ms`);
    await planner.clean('refusals');
    console.log(`${unread.length + 5} refusals and warnings in words, each true of its file`);
}

// Clicks, keys, the slider, and tolerances that are typed.
async function points(planner) {
    await planner.hand('#tonight', 'two-banks.pbm');
    const clickCell = async (x, y, shift) => {
        await planner.browser.click('#whole');
        const at = await planner.browser.run(`
            const canvas = document.getElementById('large');
            canvas.scrollIntoView({ block: 'center' });
            const box = canvas.getBoundingClientRect();
            const [x, y] = View.onCanvas(View.fit(canvas, { left: 0, top: 0, right: 10, bottom: 5 }), ...arguments);
            return [x / View.ratio() - box.width / 2, y / View.ratio() - box.height / 2];`, x, y);
        await planner.browser.clickAt('#large', ...at, shift);
    };
    await clickCell(7.5, 2.5);
    same(await planner.text('message'), 'two-banks.pbm: the bank from (7, 1).', 'a click on the other bank');
    await planner.setTolerance(0);
    same(await planner.text('points-list'), '7,1 9,1 9,4 7,4 7,1', 'the other bank');
    await clickCell(4.5, 2.5);
    same(await planner.text('note'), 'The cell at (4, 2) is water: click on sand to outline its bank.', 'a click on water');
    await clickCell(4.5, 3.5, true);
    same(await planner.text('note'), 'The party stands at (4, 3).', 'a click with shift');

    const answer = answers(join(planner.room, 'bank.pbm'));
    await planner.hand('#tonight', 'bank.pbm');
    await planner.setTolerance(0);
    for (let k = 0; k < 5; k++) {
        await planner.browser.type('#large', '\uE014'); // the arrow to the right
        const number = answer.numbers[k];
        const shown = await planner.text('point-says');
        must(shown.startsWith(`${place(answer.points[k])} `), `key ${k}: ${shown}`);
        const goes = Number((/tolerance ([0-9.,]+) /.exec(shown) || ['', ''])[1].replace(/,/g, ''));
        must(number === Infinity ? shown.includes('never goes') : goes >= number && goes - number <= number / 1000,
            `key ${k}: ${shown}, and its number is ${number}`);
    }
    await planner.set('slider', 81, 'input');
    const at16 = list(keptAt(answer, 16));
    same(await planner.browser.run('return document.getElementById("exact").value'), '16', 'the slider');
    same(await planner.text('points-list'), at16, 'the slider');
    for (const wrong of ['-1', 'x', '', '4294967297', 'NaN', '1e999', '0x10', '4,5', '1,0000']) {
        await planner.setTolerance(wrong);
        same(await planner.text('note'), 'Not so: a squared tolerance is a number from 0 to 4,294,967,296 (refusal 5).',
            `the tolerance '${wrong}'`);
        same(await planner.text('points-list'), at16, `the tolerance '${wrong}'`);
    }
    await planner.setTolerance('4,294,967,296');
    same(await planner.text('note'), '', 'a tolerance that is one');
    same(await planner.text('points-list'), list([answer.points[0], answer.points.at(-1)]), 'the greatest tolerance');
    await planner.setTolerance(4);
    await planner.clean('clicks and keys');
    console.log('clicks, keys, slider: as they should be');
}

// How long a chart takes, as the page says it.
async function times(planner, what) {
    const took = [];
    for (let k = 0; k < 12; k++) {
        await planner.hand('#tonight', k % 2 === 0 ? 'island.pbm' : 'survey.pbm');
        took.push(Number(/in ([0-9.]+) ms/.exec(await planner.text('time-says'))[1]));
    }
    took.sort((a, b) => a - b);
    must(took[6] <= 16, `half of the charts took over 16 ms: ${took.join(' ')}`);
    console.log(`512 by 512, ${what}, 12 times: ${took[0]} to ${took.at(-1)} ms, half of them under ${took[6]} ms`);
}

// What is saved: the guide's screen is the firmware's, and the six zooms have their points.
async function saves(planner) {
    await planner.hand('#tonight', 'survey.pbm');
    same(await planner.hand('#yesterday', 'yesterday.pbm'), 'yesterday.pbm, yesterday’s survey, lies beneath.', 'yesterday’s');
    same(await planner.text('yesterday-name'), 'yesterday.pbm', 'yesterday’s name');
    await planner.browser.run('document.getElementById("party-y").value = "258"');
    await planner.set('party-x', 292);
    same(await planner.text('note'), 'The party stands at (292, 258).', 'the party');
    same(await planner.browser.run(`
        const canvas = document.getElementById('screen');
        return canvas.clientWidth + ' by ' + canvas.clientHeight;`), '400 by 240', 'the screen of the guide');
    const bits = await planner.saved('#save-pbm', 'survey-screen.pbm');
    if (screen) {
        must(bits.equals(fs.readFileSync(screen)), 'the screen of the guide is not what the firmware draws');
        console.log('the screen of the guide: byte for byte what the firmware draws (guide/run)');
    }
    const svg = (await planner.saved('#save-svg', 'survey-zooms.svg')).toString();
    const lines = await planner.browser.run(`
        const picture = new DOMParser().parseFromString(arguments[0], 'image/svg+xml');
        if (picture.querySelector('parsererror')) return [];
        return [...picture.querySelectorAll('.line')].map((line) => line.getAttribute('d'));`, svg);
    const answer = answers(join(planner.room, 'survey.pbm'));
    SIX.forEach((tolerance, k) => {
        const [first, ...rest] = keptAt(answer, tolerance);
        same(lines[k], `M${first.join(',')}L${list(rest)}Z`, `the saved zoom ${k}`);
    });
    await planner.clean('saving');
}

// Drops on either half, and of several files at once.
async function drops(planner) {
    const drop = async (part, ...names) => {
        const files = names.map((name) => [name, fs.readFileSync(join(planner.room, name)).toString('base64')]);
        await planner.browser.run(`
            const held = new DataTransfer();
            for (const [name, bytes] of arguments[1]) {
                held.items.add(new File([Uint8Array.from(atob(bytes), (one) => one.charCodeAt(0))], name));
            }
            const event = (kind) => new DragEvent(kind, { dataTransfer: held, bubbles: true, cancelable: true });
            dispatchEvent(event('dragenter'));
            const where = document.querySelector('#drop [data-part=' + arguments[0] + ']');
            where.dispatchEvent(event('dragover'));
            where.dispatchEvent(event('drop'));`, part, files);
        await pause(200);
    };
    await drop('tonight', 'two-banks.pbm');
    same(await planner.text('tonight-name'), 'two-banks.pbm', 'a drop on the left');
    await drop('yesterday', 'plain.pbm');
    same(await planner.text('yesterday-name'), 'plain.pbm', 'a drop on the right');
    await drop('tonight', 'plain.pbm', 'bank.pbm');
    same(await planner.text('note'), 'Drop one file at a time: tonight’s survey on the left, yesterday’s on the right.',
        'two files at once');
    same(await planner.text('tonight-name'), 'two-banks.pbm', 'two files at once');
    same(await planner.browser.run('return document.getElementById("drop").hidden'), true, 'after a drop');
    await planner.clean('drops');
}

// Pictures of the page: at five widths, in the dark, and by other eyes. Nothing stands out, and nothing was fetched.
async function looks(planner) {
    const { browser } = planner;
    await planner.hand('#yesterday', 'yesterday.pbm');
    await planner.hand('#tonight', 'survey.pbm');
    await planner.setTolerance(16);
    await browser.run('scrollTo(0, 0)');
    for (const [width, height] of [[320, 3200], [390, 3200], [768, 2300], [1024, 1700], [1366, 1500]]) {
        await browser.size(width, height);
        await pause(400);
        const over = 'return document.documentElement.scrollWidth - document.documentElement.clientWidth';
        same(await browser.run(over), 0, `at ${width} pixels, what stands out on the right`);
        await planner.picture(`page-${width}.png`);
    }
    const dark = (value) => browser.command('Emulation.setEmulatedMedia', { features: [{ name: 'prefers-color-scheme', value }] });
    await dark('dark');
    await pause(400);
    await planner.picture('page-dark.png');
    await dark('light');
    for (const type of ['deuteranopia', 'protanopia', 'tritanopia', 'achromatopsia']) {
        await browser.command('Emulation.setEmulatedVisionDeficiency', { type });
        await pause(300);
        await planner.picture(`page-${type}.png`);
    }
    same(await browser.run('return performance.getEntriesByType("resource").length'), 0, 'what the page fetched');
    await planner.clean('at the end');
}

// The module that the page has inside answers the fixed list of frames.
async function frames() {
    const bytes = Buffer.from(/atob\('([A-Za-z0-9+/=]+)'\)/.exec(fs.readFileSync(page, 'utf8'))[1], 'base64');
    const { instance } = await WebAssembly.instantiate(bytes);
    const { memory, __heap_base: base, sandline_answer: answer } = instance.exports;
    const asked = fs.readFileSync(join(top, 'crates/sandline/stdin'), 'latin1').split('\n');
    const expected = fs.readFileSync(join(top, 'crates/sandline/stdout'), 'latin1').split('\n');
    memory.grow(32);
    const lent = Buffer.from(memory.buffer);
    const out = base.value + (1 << 20);
    asked.forEach((line, k) => {
        lent.write(line, base.value, 'latin1');
        const length = Number(answer(base.value, BigInt(line.length), out, 65536n, 0n));
        same(lent.toString('latin1', out, out + length), expected[k], `frame ${k + 1}`);
    });
    console.log(`the page's module: ${asked.length} frames, answered as the original Rust does`);
}

async function main() {
    const { held, unread, others } = all(top);
    const room = fs.mkdtempSync(join(folder, 'handed-'));
    const browser = await open({ downloads: room });
    const planner = new Planner(browser, room);
    try {
        for (const [name, bytes] of Object.entries(others)) planner.write(name, bytes);
        await planner.begin();
        await shows(planner, held);
        await refuses(planner, unread);
        await points(planner);
        await times(planner, 'alone');
        await saves(planner);
        await times(planner, 'over yesterday’s');
        await drops(planner);
        await looks(planner);
    } finally {
        await browser.close();
        fs.rmSync(room, { recursive: true, force: true });
    }
    await frames();
}

main().then(() => {
    if (process.exitCode === undefined) console.log(`web/check: ${checked} things, all as they should be`);
}, (error) => {
    console.error(`web/check: ${error.stack}`);
    process.exitCode = 1;
});
