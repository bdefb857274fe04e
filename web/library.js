// The proved calls, for the page: charts and lists of points in, answers out. A call that refuses answers its number
// alone; it is 0 where it is done. Nothing is decided here: each function lends memory, calls, and copies the answer out.
'use strict';

const Library = (() => {
    const MOST_BYTES = 600000; // of a file, as the program survey reads them
    const MOST_WALKED = 526339; // points of the longest outline of 512 by 512 cells
    const MOST_POINTS = 4096;

    // Lays what a page lends behind the module's own memory.
    function lend(calls) {
        let at = (calls.__heap_base.value + 15) & ~15;
        const take = (bytes) => {
            const here = at;
            at = (at + bytes + 15) & ~15;
            return here;
        };
        const places = {
            file: take(MOST_BYTES),
            chart: take(32768),
            walked: take(8 * MOST_WALKED),
            kept: take(8 * MOST_POINTS),
            numbers: take(8 * MOST_POINTS),
            zoomed: take(8 * MOST_POINTS),
            out: take(64),
            shown: take(48),
            picture: take(32779),
        };
        const missing = at - calls.memory.buffer.byteLength;
        if (missing > 0) calls.memory.grow(Math.ceil(missing / 65536));
        return places;
    }

    async function load(bytes) {
        const { instance } = await WebAssembly.instantiate(bytes);
        const calls = instance.exports;
        const at = lend(calls);
        const memory = calls.memory.buffer;
        const u8 = new Uint8Array(memory);
        const i32 = new Int32Array(memory);
        const f64 = new Float64Array(memory);
        const u64 = new BigUint64Array(memory);
        const count = (k = 0) => Number(u64[at.out / 8 + k]);
        const points = (place, n) => i32.slice(place / 4, place / 4 + 2 * n);
        const lendChart = (chart) => {
            u8.set(chart.pixels, at.chart);
            return [BigInt(chart.width), BigInt(chart.height), at.chart, BigInt(chart.pixels.length)];
        };
        const lendPoints = (list) => {
            i32.set(list, at.kept / 4);
            return [at.kept, BigInt(list.length)];
        };

        return {
            MOST_BYTES,

            // The chart of a PBM file, of which no more than the first 600,000 bytes are looked at.
            readChart(file) {
                const looked = file.subarray(0, MOST_BYTES);
                u8.set(looked, at.file);
                const number = calls.sandline_read_pbm(at.file, BigInt(looked.length), at.chart, 32768n, at.out + 8,
                    at.out + 16, at.out);
                if (number !== 0) return { number };
                const width = count(1);
                const height = count(2);
                const bytes = Math.ceil(width / 8) * height;
                return { number, chart: { width, height, pixels: u8.slice(at.chart, at.chart + bytes) } };
            },

            area(chart) {
                const number = calls.sandline_area(...lendChart(chart), at.out);
                return { number, cells: count() };
            },

            firstStart(chart) {
                const number = calls.sandline_first_start(...lendChart(chart), at.out);
                return number !== 0 ? { number } : { number, start: [...points(at.out, 1)] };
            },

            // The outline, clockwise.
            walk(chart, [x, y]) {
                const number = calls.sandline_walk(...lendChart(chart), x, y, 1, at.walked, BigInt(2 * MOST_WALKED),
                    at.out);
                return number !== 0 ? { number } : { number, points: points(at.walked, count()) };
            },

            simplify(list) {
                i32.set(list, at.walked / 4);
                const number = calls.sandline_simplify(at.walked, BigInt(list.length), 1, at.kept,
                    BigInt(2 * MOST_POINTS), at.out);
                return number !== 0 ? { number } : { number, points: points(at.kept, count()) };
            },

            // One number for each point.
            numbers(list) {
                const number = calls.sandline_numbers(...lendPoints(list), at.numbers, BigInt(MOST_POINTS), at.out);
                if (number !== 0) return { number };
                return { number, numbers: f64.slice(at.numbers / 8, at.numbers / 8 + count()) };
            },

            // The points that a squared tolerance keeps.
            zoom(list, numbers, tolerance) {
                f64.set(numbers, at.numbers / 8);
                const number = calls.sandline_zoom(...lendPoints(list), at.numbers, BigInt(numbers.length), tolerance,
                    at.zoomed, BigInt(2 * MOST_POINTS), at.out);
                return number !== 0 ? { number } : { number, points: points(at.zoomed, count()) };
            },

            // The guide's screen with the party at a cell: 400 by 240, a bit a pixel, and how many points each zoom shows.
            guideScreen(chart, list, numbers, [x, y]) {
                f64.set(numbers, at.numbers / 8);
                const number = calls.guide_draw(...lendChart(chart), lendPoints(list)[0], at.numbers,
                    BigInt(numbers.length), x, y, at.zoomed, at.shown);
                if (number !== 0) return { number };
                const screen = calls.guide_screen();
                const shown = Array.from(u64.subarray(at.shown / 8, at.shown / 8 + 6), Number);
                return { number, screen: { width: 400, height: 240, pixels: u8.slice(screen, screen + 12000) }, shown };
            },

            // A chart as a raw PBM file.
            writePbm(chart) {
                const number = calls.sandline_write_pbm(...lendChart(chart), at.picture, 32779n, at.out);
                return number !== 0 ? { number } : { number, file: u8.slice(at.picture, at.picture + count()) };
            },
        };
    }

    return { load };
})();
