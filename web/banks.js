// The banks of a chart: sets of cells that hang together by their sides. A walk follows one outline, and each bank has a
// start of its own, the top left corner of its first cell, row by row.
'use strict';

const Banks = (() => {
    const isSand = (chart, x, y) =>
        x >= 0 && y >= 0 && x < chart.width && y < chart.height &&
        (chart.pixels[Math.ceil(chart.width / 8) * y + (x >> 3)] & (128 >> (x & 7))) !== 0;

    const SIDES = [[-1, 0], [1, 0], [0, -1], [0, 1]];
    const ALL = [...SIDES, [-1, -1], [1, -1], [-1, 1], [1, 1]];

    // Marks the sand that hangs together with a cell, by those ways, and counts it.
    function spread(chart, of, mark, x, y, ways, waiting) {
        let many = 0;
        let cells = 0;
        const take = (tx, ty) => {
            const at = ty * chart.width + tx;
            if (!isSand(chart, tx, ty) || of[at] !== 0) return;
            of[at] = mark;
            waiting[many++] = at;
            cells++;
        };
        take(x, y);
        while (many > 0) {
            const at = waiting[--many];
            const column = at % chart.width;
            const row = (at - column) / chart.width;
            for (const [dx, dy] of ways) take(column + dx, row + dy);
        }
        return cells;
    }

    // For each cell the number of its bank, 1 and on, 0 for water; and of each bank its start and how many cells it has.
    function find(chart) {
        const { width, height } = chart;
        const of = new Uint32Array(width * height);
        const waiting = new Int32Array(width * height);
        const banks = [];
        for (let y = 0; y < height; y++) {
            for (let x = 0; x < width; x++) {
                if (of[y * width + x] !== 0 || !isSand(chart, x, y)) continue;
                banks.push({ start: [x, y], cells: spread(chart, of, banks.length + 1, x, y, SIDES, waiting) });
            }
        }
        return { of, banks };
    }

    // Whether of the four cells around a corner only two are sand, across from each other.
    function touches(chart, x, y) {
        const a = isSand(chart, x - 1, y - 1);
        const b = isSand(chart, x, y - 1);
        return a !== b && isSand(chart, x - 1, y) === b && isSand(chart, x, y) === a;
    }

    // Such corners along an outline, each once.
    function touchedBy(chart, walked) {
        const places = new Map();
        for (let k = 2; k < walked.length; k += 2) {
            const [dx, dy] = [Math.sign(walked[k] - walked[k - 2]), Math.sign(walked[k + 1] - walked[k - 1])];
            let [x, y] = [walked[k - 2], walked[k - 1]];
            while (x !== walked[k] || y !== walked[k + 1]) {
                x += dx;
                y += dy;
                if (touches(chart, x, y)) places.set(y * 513 + x, [x, y]);
            }
        }
        return [...places.values()];
    }

    // Such corners of all the sand that hangs together, also by its corners, with the cell behind a start.
    function touchedAround(chart, [x, y]) {
        const of = new Uint32Array(chart.width * chart.height);
        spread(chart, of, 1, x, y, ALL, new Int32Array(chart.width * chart.height));
        const places = [];
        for (let row = 1; row < chart.height; row++) {
            for (let column = 1; column < chart.width; column++) {
                if (!touches(chart, column, row)) continue;
                const upper = (row - 1) * chart.width + column;
                if (of[upper] !== 0 || of[upper - 1] !== 0) places.push([column, row]);
            }
        }
        return places;
    }

    return { isSand, find, touchedBy, touchedAround };
})();
