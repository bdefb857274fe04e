// What web/check hands to the page: good charts, bad ones, and what each refusal must say of its file.
'use strict';

const fs = require('node:fs');
const { join } = require('node:path');

// A raw PBM file; `sand` says whether a cell is.
function raw(width, height, sand) {
    const row = Math.ceil(width / 8);
    const pixels = Buffer.alloc(row * height);
    for (let y = 0; y < height; y++) {
        for (let x = 0; x < width; x++) if (sand(x, y)) pixels[row * y + (x >> 3)] |= 128 >> (x & 7);
    }
    return Buffer.concat([Buffer.from(`P4\n${width} ${height}\n`), pixels]);
}

const drawn = (rows) => raw(rows[0].length, rows.length, (x, y) => rows[y][x] === '#');
const text = (letters) => Buffer.from(letters, 'latin1');

// Noise that is the same each time.
function noise(seed) {
    let state = seed;
    return () => {
        state = (Math.imul(state, 1664525) + 1013904223) >>> 0;
        return state / 2 ** 32;
    };
}

// An island with a ragged coast.
function island(size, seed) {
    const next = noise(seed);
    const waves = Array.from({ length: 9 }, (none, k) => [3 + 2 * k, next() * 6.28, next() * size / (9 + 6 * k)]);
    return raw(size, size, (x, y) => {
        const [dx, dy] = [x - size / 2 + 0.5, y - size / 2 + 0.5];
        const turn = Math.atan2(dy, dx);
        const coast = waves.reduce((sum, [n, at, high]) => sum + high * Math.sin(n * turn + at), size / 2.9);
        return Math.hypot(dx, dy) < coast;
    });
}

// A raw survey of 512 by 512, so many cells to the left and lower down.
function moved(survey, left, down) {
    const rows = survey.subarray(survey.length - 32768);
    return raw(512, 512, (x, y) => {
        const [column, row] = [x + left, y - down];
        return row >= 0 && column < 512 && (rows[64 * row + (column >> 3)] & 128 >> (column & 7)) !== 0;
    });
}

function all(top) {
    const bank = fs.readFileSync(join(top, 'docs/zooms/bank.pbm'));
    const survey = fs.readFileSync(join(top, 'guide/survey.pbm'));
    const next = noise(7);

    // Files that are held to what `survey` answers.
    const held = [
        ['bank.pbm', bank],
        ['survey.pbm', survey],
        ['island.pbm', island(512, 3)],
        ['small-island.pbm', island(37, 5)],
        ['one-by-one.pbm', raw(1, 1, () => true)],
        ['one-by-one-plain.pbm', text('P1 1 1 1')],
        ['full.pbm', raw(512, 512, () => true)],
        ['row.pbm', raw(512, 1, (x) => x !== 100)],
        ['two-banks.pbm', drawn(['..........', '.##....##.', '.##....##.', '.......##.', '..........'])],
        ['plain.pbm', text('P1\n# a plain one\n4 3\n0110\n1111\n0110 and more')],
        ['blank.pbm', raw(64, 64, () => false)],
        ['blank-one.pbm', raw(1, 1, () => false)],
        ['stuck.pbm', drawn(['#.#', '.#.'])],
        ['empty.pbm', Buffer.alloc(0)],
        ['cut.pbm', bank.subarray(0, 500)],
        ['cut-header.pbm', bank.subarray(0, 20)],
        ['wide.pbm', raw(600, 4, () => true)],
        ['high.pbm', text('P1 3 70000 1')],
        ['nothing-wide.pbm', text('P4 0 5 ')],
        ['colour.pbm', text('P6 2 2 255 aaabbbcccddd')],
        ['letters.pbm', text('P1 2 2 1 0 x 1')],
        ['few.pbm', text('P1 9 9 1 1 1')],
        ['noise.pbm', Buffer.from(Array.from({ length: 70000 }, () => Math.floor(256 * next())))],
        ['noise-in-a-chart.pbm', raw(16, 16, () => next() < 0.5)],
        ['long.pbm', Buffer.concat([bank, Buffer.alloc(3000000, 0x55)])],
        ['late.pbm', Buffer.concat([text('P4\n#'), Buffer.alloc(700000, 0x61), text('\n8 1\n\x80')])],
        ['<b>&amp;.pbm', bank],
    ];

    // Files that cannot be read, and what is said of each.
    const is = (size) => `this PBM file says that it is ${size} cells`;
    const unread = [
        ['wide', raw(600, 4, () => true), 1, 'this chart is 600 cells wide, and 512 is the most'],
        ['none', text('P4 0 5 '), 1, 'this chart is 0 cells wide, and 1 is the least'],
        ['both', text('P1 513 0 '), 1,
            'this chart is 513 cells wide, and 512 is the most; it is 0 cells high, and 1 is the least'],
        ['nines', text(`P4 ${'9'.repeat(1000)} 5`), 1, 'this chart is over 999,999,999 cells wide, and 512 is the most'],
        ['zeros', text(`P4 ${'0'.repeat(5000)}8 600`), 1, 'this chart is 600 cells high, and 512 is the most'],
        ['comment', text(`P4\n#${'a'.repeat(5000)}\n600 4\n`), 1, 'this chart is 600 cells wide, and 512 is the most'],
        ['nothing', text(''), 12, 'this file is empty'],
        ['hello', text('hello'), 12, 'this is not a PBM picture: it does not begin with P1 or P4. Save the survey as PBM, ' +
            'the black and white kind of Netpbm'],
        ['parted', text('P48 1'), 12, 'this is not a PBM picture: there is no space after its first two letters'],
        ['minus', text('P1 -3 4'), 12, 'this PBM file does not say, in digits, how many cells it is wide'],
        ['one-size', text('P4 600'), 12, 'this PBM file does not say, in digits, how many cells it is high'],
        ['no-width', text('P4 8x 1 '), 12, 'in this PBM file there is no space after the width'],
        ['ended', text('P4 8 1'), 12, 'in this PBM file there is no space after the height, and so no picture'],
        ['half', bank.subarray(0, 500), 12, `${is('128 by 80')}, which is 1,280 bytes, and only ` +
            `${500 - bank.indexOf('128 80\n') - 7} are there`],
        ['no-byte', text('P4 1 1\n'), 12, `${is('1 by 1')}, which is 1 byte, and none is there`],
        ['three', text('P1 9 9 1 1 1'), 12, `${is('9 by 9')}, 81 in all, and only 3 are there`],
        ['byte', text('P1 2 2 1 0 x 1'), 12,
            `${is('2 by 2')}, but after 2 cells there is a byte that is not 0, 1 or white space`],
        ['among', text('P1 2 2 1 #0\n 0 1'), 12,
            `${is('2 by 2')}, but after 1 cell there is a comment, which may not stand among cells`],
        ['spread', text(`P1 512 512 ${'1  '.repeat(512 * 512)}`), 12,
            'only the first 600,000 bytes of a file are read, and the picture is not whole within them'],
    ];

    const others = {
        // The survey's bank seven cells to the left and nine lower down.
        'yesterday.pbm': moved(survey, 7, 9),
        // A comb whose teeth have teeth: 64 of them, with 255 each.
        'comb.pbm': raw(512, 512, (x, y) => x === 0 || y % 8 < 3 || (y % 8 === 3 && x % 2 === 0)),
        // A walk from (3, 3) passes three corners where cells touch.
        'corner.pbm': drawn(['.###', '#.#.', '..#.', '##.#']),
        // Cells that touch at corners alone.
        'board.pbm': raw(512, 512, (x, y) => (x + y) % 2 === 0),
    };
    return { held, unread, others };
}

module.exports = { all };
