// The page: what was chosen, what is shown of it, and what keys and pointers do.
'use strict';

const Page = (() => {
    const $ = (id) => document.getElementById(id);

    // The six squared tolerances, from a quarter of a cell to 16 cells, and where each stands on the slider.
    const SIX = [1 / 16, 1, 4, 16, 64, 256];
    const TITLES = ['Nearest', 'Nearer', 'Near', 'Wide', 'Wider', 'Widest'];
    const toleranceAt = (step) => (step === 0 ? 0 : Number((2 ** ((step - 1) / 8 - 6)).toPrecision(6)));
    const stepOf = (tolerance) =>
        tolerance < 1 / 64 ? 0 : Math.min(177, Math.round(8 * (Math.log2(tolerance) + 6)) + 1);

    let library;
    let module;
    let palette = View.colours();
    let image = null; // the sand of both charts
    let at = null; // how the large view lies over the chart; null to fit it to the bank, which is told by `fitted`

    const nothing = () => ({
        name: '', chart: null, start: null, walked: null, points: null, numbers: null, touches: [], found: null,
        party: null, screen: null, tolerance: 4, zoom: null, picked: -1,
    });
    let shown = nothing();
    let yesterday = null; // { name, chart, edges }

    // ---- numbers in words

    const figure = (value) =>
        Number.isInteger(value) ? value.toLocaleString('en-GB') : String(Number(value.toPrecision(4)));
    // The same, but never less than the value: at that tolerance its point is gone.
    const figureAbove = (value) => {
        if (Number.isInteger(value)) return figure(value);
        const unit = 10 ** (Math.floor(Math.log10(value)) - 3);
        const steps = (n) => Number((n * unit).toPrecision(4));
        const least = Math.ceil(value / unit);
        return String(steps(least) < value ? steps(least + 1) : steps(least));
    };
    const inCells = (tolerance) => {
        const side = Math.sqrt(tolerance);
        return side === 1 ? '1 cell' : `${figure(side)} cells`;
    };
    const toleranceWords = (tolerance) => `squared tolerance ${figure(tolerance)} (${inCells(tolerance)})`;
    const titleOf = (k) => `${TITLES[k]}: ${inCells(SIX[k])}, squared ${figure(SIX[k])}`;

    // ---- what is said: the message of the chart stands, a note tells of what was done last

    function write(id, text, refused) {
        $(id).textContent = text;
        $(id).classList.toggle('refused', refused);
    }
    const say = (text, refused = false) => write('message', text, refused);
    const note = (text, refused = false) => write('note', text, refused);

    // ---- what a zoom keeps

    // The places of the points whose number lies above one tolerance and not above another.
    function between(low, high) {
        const places = [];
        for (let k = 0; k < shown.numbers.length; k++) {
            if (shown.numbers[k] > low && shown.numbers[k] <= high) places.push(placeOf(k));
        }
        return places;
    }

    const placeOf = (k) => [shown.points[2 * k], shown.points[2 * k + 1]];

    const zoomAt = (tolerance) => library.zoom(shown.points, shown.numbers, tolerance).points;

    // The one that is shown large: what it keeps; of these, what stays at the next wider one, and what goes; and what the
    // next nearer one still had.
    function largeZoom() {
        const { tolerance } = shown;
        return {
            points: zoomAt(tolerance),
            stays: between(4 * tolerance, Infinity),
            next: between(tolerance, 4 * tolerance),
            lost: between(tolerance / 4, tolerance),
        };
    }

    // One of the six: what it keeps, what it has dropped since the one before it, and what the widest has too.
    function oneOfSix(k) {
        const points = zoomAt(SIX[k]);
        const lost = between(k === 0 ? -1 : SIX[k - 1], SIX[k]);
        return {
            points,
            lost,
            lasting: between(SIX[5], Infinity),
            title: titleOf(k),
            caption: Words.counted(points.length / 2, 'point') + (lost.length > 0 ? `, ${Words.many(lost.length)} dropped` : ''),
        };
    }

    // ---- drawing

    const whole = (chart) => ({ left: 0, top: 0, right: chart.width, bottom: chart.height });

    const boxOf = () =>
        shown.walked !== null ? View.bounds(shown.walked)
            : shown.chart !== null ? whole(shown.chart)
                : yesterday !== null ? whole(yesterday.chart)
                    : { left: 0, top: 0, right: 1, bottom: 1 };

    function drawSix() {
        const box = boxOf();
        [...$('zooms').children].forEach((panel, k) => {
            const canvas = panel.querySelector('canvas');
            const caption = panel.querySelector('figcaption');
            const name = (says) => canvas.parentElement.setAttribute('aria-label', `${titleOf(k)}; ${says}. Show it large.`);
            const lies = View.fit(canvas, box);
            const to = View.drawSand(canvas, lies, image, palette);
            caption.replaceChildren(bold(titleOf(k)));
            if (shown.points === null) {
                caption.append('no outline');
                name('no outline');
                return;
            }
            const zoom = oneOfSix(k);
            View.drawOutline(to, lies, zoom.points, palette, 1.2);
            View.drawStays(to, lies, zoom.lasting, palette, 2);
            View.drawLost(to, lies, zoom.lost, palette, 2, 1.3);
            caption.append(zoom.caption);
            name(zoom.caption);
        });
    }

    function bold(text) {
        const element = document.createElement('b');
        element.textContent = text;
        return element;
    }

    function drawLarge() {
        const canvas = $('large');
        if (at === null) at = { ...View.fit(canvas, boxOf()), fitted: true };
        const to = View.drawSand(canvas, at, image, palette);
        canvas.setAttribute('aria-label', `The bank at ${toleranceWords(shown.tolerance)}`);
        if (shown.zoom !== null) {
            View.drawOutline(to, at, shown.zoom.points, palette, 1.8);
            View.drawStays(to, at, shown.zoom.stays, palette, 3.2);
            View.drawNext(to, at, shown.zoom.next, palette, 4);
            View.drawLost(to, at, shown.zoom.lost, palette, 4);
        }
        View.drawRings(to, at, shown.touches, palette, palette.lost, 7);
        if (shown.picked >= 0) View.drawRings(to, at, [placeOf(shown.picked)], palette, palette.pick, 8);
    }

    // ---- what it says

    function sayChart() {
        $('chart-says').textContent = shown.chart === null ? '–'
            : `${Words.many(shown.chart.width)} by ${Words.many(shown.chart.height)}, ` +
                `${Words.cells(library.area(shown.chart).cells)} of sand`;
    }

    function sayOutline() {
        $('outline-says').textContent = shown.walked === null ? '–'
            : `${Words.counted(shown.walked.length / 2, 'point')} from ${Words.place(shown.start)}` +
                (shown.points === null ? '' : `, ${Words.many(shown.points.length / 2)} of them left when simplified`);
    }

    function sayZoom() {
        const { tolerance } = shown;
        $('tolerance-says').textContent = inCells(tolerance);
        $('slider').setAttribute('aria-valuetext', toleranceWords(tolerance));
        const panels = [...$('zooms').querySelectorAll('button')];
        panels.forEach((button, k) => button.setAttribute('aria-pressed', SIX[k] === tolerance));
        if (shown.zoom === null) {
            $('zoom-says').textContent = $('points-list').textContent = '–';
            return;
        }
        const { points, next, lost } = shown.zoom;
        $('zoom-says').textContent = `${Words.counted(points.length / 2, 'point')}, ${Words.many(lost.length)} just dropped, ` +
            `${Words.many(next.length)} ${next.length === 1 ? 'goes' : 'go'} next`;
        let list = '';
        for (let k = 0; k < points.length; k += 2) list += `${k === 0 ? '' : ' '}${points[k]},${points[k + 1]}`;
        $('points-list').textContent = list;
    }

    function sayPoint() {
        $('party-here').disabled = shown.picked < 0;
        if (shown.picked < 0) {
            $('point-says').textContent = shown.points === null ? '–' : 'Point at one, or use ← and → on the picture.';
            return;
        }
        const number = shown.numbers[shown.picked];
        const place = Words.place(placeOf(shown.picked));
        $('point-says').textContent = number === Infinity ? `${place} never goes: the outline begins and ends there.`
            : `${place} goes at squared tolerance ${figureAbove(number)} (${inCells(number)}).`;
    }

    function showScreen() {
        const canvas = $('screen');
        const ready = shown.points !== null;
        $('save-svg').disabled = $('save-pbm').disabled = !ready;
        $('party-x').disabled = $('party-y').disabled = !ready;
        valid('party-x', true);
        valid('party-y', true);
        $('party-x').value = ready ? shown.party[0] : '';
        $('party-y').value = ready ? shown.party[1] : '';
        if (!ready) {
            canvas.getContext('2d').clearRect(0, 0, 400, 240);
            shown.screen = null;
            return;
        }
        shown.screen = library.guideScreen(shown.chart, shown.points, shown.numbers, shown.party).screen;
        View.drawBits(canvas, shown.screen);
    }

    function showSand() {
        image = shown.chart === null && yesterday === null ? null
            : View.sand(shown.chart, yesterday, palette);
        $('main').classList.toggle('empty', image === null);
    }

    function showZoom() {
        shown.zoom = shown.points === null ? null : largeZoom();
        drawLarge();
        sayZoom();
    }

    // All canvases are measured before anything is written: else the browser would lay the page out again for each.
    function measure() {
        for (const canvas of document.querySelectorAll('#large, #zooms canvas')) View.fine(canvas);
    }

    function showAll() {
        measure();
        showSand();
        drawSix();
        showScreen();
        sayChart();
        sayOutline();
        sayPoint();
        showZoom();
    }

    // ---- an outline

    // From a start: walked, simplified, numbered. Says why not, where it is refused.
    function outline(start) {
        shown.start = start;
        shown.walked = shown.points = shown.numbers = null;
        shown.touches = [];
        shown.picked = -1;
        const walked = library.walk(shown.chart, start);
        if (walked.number === 9) {
            shown.touches = Banks.touchedAround(shown.chart, start);
            return refused(Words.stuck(start, shown.touches));
        }
        if (walked.number !== 0) return refused(Words.other('walk around this bank', walked.number));
        shown.walked = walked.points;
        const simple = library.simplify(walked.points);
        if (simple.number === 2) return refused(Words.tooMany(walked.points.length / 2));
        if (simple.number !== 0) return refused(Words.other('simplify this outline', simple.number));
        const numbers = library.numbers(simple.points);
        if (numbers.number !== 0) return refused(Words.other('number this outline', numbers.number));
        shown.points = simple.points;
        shown.numbers = numbers.numbers;
        shown.touches = Banks.touchedBy(shown.chart, shown.walked);
        return true;
    }

    function refused(words) {
        say(`${shown.name}: ${words}`, true);
        return false;
    }

    // The sentence of an outline that is there: which bank, and a warning if it passes where cells touch at a corner.
    function sayBank(which) {
        const warned = shown.touches.length > 0;
        say(`${shown.name}: ${which}.${warned ? ` ${Words.passes(shown.touches)}` : ''}`, warned);
    }

    // The chosen bank: its outline, fitted into all views.
    function choose(start) {
        const begun = performance.now();
        at = null;
        note('');
        if (outline(start)) sayBank(`the bank from ${Words.place(start)}`);
        showAll();
        sayTime('Walked, simplified, numbered and drawn', begun);
        markBank();
    }

    function sayTime(what, begun) {
        $('time-says').textContent = shown.points === null ? '–'
            : `${what} at six zooms in ${(performance.now() - begun).toFixed(1)} ms`;
    }

    // ---- charts. One that is refused leaves what is shown as it was

    function showTonight(name, file, size) {
        const begun = performance.now();
        const read = library.readChart(file);
        if (read.number !== 0) {
            const stays = shown.chart === null ? '' : ` ${shown.name} is still shown.`;
            note(`${name}: ${Words.ofFile(read.number, file, size)}${stays}`, true);
            return;
        }
        const { chart } = read;
        shown = { ...nothing(), name, chart, tolerance: shown.tolerance };
        shown.party = [Math.floor(chart.width / 2), Math.floor(chart.height / 2)];
        at = null;
        note('');
        $('tonight-name').textContent = name;
        const first = library.firstStart(chart);
        if (first.number === 8) refused(Words.blank);
        else if (first.number !== 0) refused(Words.other('find a start', first.number));
        else if (outline(first.start)) sayBank(`the first bank, from ${Words.place(first.start)}`);
        emptyBanks();
        showAll();
        sayTime('Read, walked, simplified, numbered and drawn', begun);
        setTimeout(() => chart === shown.chart && safely(listBanks), 0);
    }

    function showYesterday(name, file, size) {
        const read = library.readChart(file);
        if (read.number !== 0) {
            const stays = yesterday === null ? '' : ` ${yesterday.name} is still shown.`;
            note(`${name}: ${Words.ofFile(read.number, file, size)}${stays}`, true);
            return;
        }
        yesterday = { name, chart: read.chart, edges: View.edges(read.chart) };
        $('yesterday-name').textContent = name;
        $('forget').hidden = false;
        note(shown.chart === null ? `${name}: yesterday’s survey. There is none for tonight yet.`
            : `${name}, yesterday’s survey, lies beneath.`);
        if (shown.chart === null) at = null;
        showAll();
    }

    function forgetYesterday() {
        yesterday = null;
        $('yesterday-name').textContent = 'none yet';
        $('forget').hidden = true;
        note('Yesterday’s survey is removed.');
        showAll();
        $('yesterday').focus();
    }

    // ---- the list of banks

    const MOST_LISTED = 60;

    const bankOption = (k) => {
        const { start, cells } = shown.found.banks[k];
        return new Option(`${Words.cells(cells)}, from ${Words.place(start)}`, k);
    };

    function emptyBanks() {
        $('bank').replaceChildren(new Option('–'));
        $('bank').disabled = true;
    }

    function findBanks() {
        if (shown.found === null) shown.found = Banks.find(shown.chart);
        return shown.found;
    }

    // The largest first; and a word about it, if the first start's is another.
    function listBanks() {
        const { banks } = findBanks();
        if (banks.length === 0) return;
        const order = banks.map((bank, k) => k).sort((a, b) => banks[b].cells - banks[a].cells);
        $('bank').replaceChildren(...order.slice(0, MOST_LISTED).map(bankOption));
        if (banks.length > MOST_LISTED) {
            const rest = new Option(`and ${Words.many(banks.length - MOST_LISTED)} smaller ones: click them`, '');
            rest.disabled = true;
            $('bank').append(rest);
        }
        $('bank').disabled = false;
        markBank();
        const [largest] = order;
        if (banks[largest].cells > banks[0].cells && $('note').textContent === '') {
            note(`There are ${Words.many(banks.length)} banks; the largest has ${Words.cells(banks[largest].cells)}, from ` +
                `${Words.place(banks[largest].start)}.`);
        }
    }

    function markBank() {
        if (shown.found === null || shown.start === null) return;
        const k = shown.found.banks.findIndex(({ start }) => start[0] === shown.start[0] && start[1] === shown.start[1]);
        if (k < 0) return;
        $('bank').value = String(k);
        if ($('bank').selectedIndex < 0) {
            $('bank').prepend(bankOption(k));
            $('bank').value = String(k);
        }
    }

    // ---- pointing

    function chartPlace(event) {
        const box = $('large').getBoundingClientRect();
        const ratio = View.ratio();
        return [at.left + (event.clientX - box.left) * ratio / at.scale, at.top + (event.clientY - box.top) * ratio / at.scale];
    }

    // The point that shows nearest to a place, within so many pixels; -1 for none.
    function nearest([x, y], pixels) {
        if (shown.points === null) return -1;
        let best = -1;
        let least = (pixels * View.ratio() / at.scale) ** 2;
        for (let k = 0; k < shown.numbers.length; k++) {
            if (!visible(k)) continue;
            const distance = (shown.points[2 * k] - x) ** 2 + (shown.points[2 * k + 1] - y) ** 2;
            if (distance < least) {
                least = distance;
                best = k;
            }
        }
        return best;
    }

    // A point has a mark in the large view: it is kept, or just dropped.
    const visible = (k) => shown.numbers[k] > shown.tolerance / 4;

    function pick(k) {
        if (k === shown.picked) return;
        shown.picked = k;
        drawLarge();
        sayPoint();
    }

    // To the next point that has a mark, or to the one before. The last is the first again, and is passed over.
    function step(by) {
        if (shown.points === null) return;
        const n = Math.max(1, shown.numbers.length - 1);
        let k = shown.picked < 0 ? (by > 0 ? n - 1 : 0) : shown.picked % n;
        for (let tried = 0; tried < n; tried++) {
            k = (k + by + n) % n;
            if (visible(k)) break;
        }
        pick(k);
        bringIn(placeOf(k));
    }

    // Moves the large view so that a place is in it.
    function bringIn([x, y]) {
        const canvas = $('large');
        const [px, py] = View.onCanvas(at, x, y);
        if (px >= 0 && py >= 0 && px <= canvas.width && py <= canvas.height) return;
        at = View.centred(canvas, at.scale, [x, y]);
        drawLarge();
    }

    function clicked(place, withShift) {
        if (shown.chart === null) return;
        const [x, y] = place.map(Math.floor);
        if (withShift) {
            putParty(x, y);
            return;
        }
        const point = nearest(place, 10);
        if (point >= 0) {
            pick(point);
            return;
        }
        if (!Banks.isSand(shown.chart, x, y)) {
            note(`The cell at ${Words.place([x, y])} is water: click on sand to outline its bank.`);
            return;
        }
        const { of, banks } = findBanks();
        const { start } = banks[of[y * shown.chart.width + x] - 1];
        if (start[0] !== shown.start[0] || start[1] !== shown.start[1]) choose(start);
    }

    const MOST_AWAY = 16383;

    function putParty(x, y) {
        if (shown.points === null) {
            note('There is no outline yet for a party to walk by.', true);
            return;
        }
        const fits = (n) => Number.isInteger(n) && Math.abs(n) <= MOST_AWAY;
        if (!fits(x) || !fits(y)) {
            valid('party-x', fits(x));
            valid('party-y', fits(y));
            note(`Not so: ${Words.badParty}`, true);
            return;
        }
        shown.party = [x, y];
        showScreen();
        note(`The party stands at ${Words.place([x, y])}.`);
    }

    const valid = (id, yes) => $(id).setAttribute('aria-invalid', String(!yes));

    function magnify(by, [x, y]) {
        const scale = Math.min(Math.max(at.scale * by, 0.1), 256);
        at = { scale, left: x - (x - at.left) * at.scale / scale, top: y - (y - at.top) * at.scale / scale };
        drawLarge();
    }

    // By so many pixels of the page.
    function move(dx, dy) {
        at = { scale: at.scale, left: at.left + dx * View.ratio() / at.scale, top: at.top + dy * View.ratio() / at.scale };
        drawLarge();
    }

    function middle() {
        const canvas = $('large');
        return [at.left + canvas.width / at.scale / 2, at.top + canvas.height / at.scale / 2];
    }

    function fitBank() {
        at = null;
        drawLarge();
    }

    function fitChart() {
        if (shown.chart === null) return;
        at = View.fit($('large'), whole(shown.chart));
        drawLarge();
    }

    function listenToPointers(canvas) {
        const held = new Map(); // pointers that are down, and where
        let moved = 0; // how far, since the first came down
        let alone = true; // and whether it was the only one
        canvas.addEventListener('pointerdown', (event) => {
            if (event.button !== 0) return;
            if (held.size === 0) moved = 0;
            alone = held.size === 0;
            held.set(event.pointerId, event);
            canvas.setPointerCapture(event.pointerId);
        });
        canvas.addEventListener('pointermove', (event) => {
            if (event.buttons === 0) held.clear();
            const before = held.get(event.pointerId);
            if (before === undefined) {
                if (held.size === 0) pick(nearest(chartPlace(event), 14));
                return;
            }
            const dx = event.clientX - before.clientX;
            const dy = event.clientY - before.clientY;
            moved += Math.abs(dx) + Math.abs(dy);
            if (held.size === 2) {
                const other = [...held.values()].find((one) => one.pointerId !== event.pointerId);
                const apart = (one) => Math.hypot(one.clientX - other.clientX, one.clientY - other.clientY);
                if (apart(before) > 0) magnify(apart(event) / apart(before), chartPlace(other));
            } else if (moved > 6) {
                move(-dx, -dy);
            }
            held.set(event.pointerId, event);
        });
        canvas.addEventListener('pointerup', (event) => {
            const click = held.has(event.pointerId) && held.size === 1 && alone && moved <= 6;
            held.delete(event.pointerId);
            if (click) safely(() => clicked(chartPlace(event), event.shiftKey));
        });
        canvas.addEventListener('pointercancel', (event) => held.delete(event.pointerId));
        canvas.addEventListener('pointerleave', () => {
            if (held.size === 0 && document.activeElement !== canvas) pick(-1);
        });
        // The wheel magnifies with ctrl, as two fingers on a touchpad do, or once the picture has the focus; else the page
        // goes on scrolling.
        canvas.addEventListener('wheel', (event) => {
            if (image === null || !(event.ctrlKey || document.activeElement === canvas)) return;
            event.preventDefault();
            magnify(2 ** (-event.deltaY / 300), chartPlace(event));
        }, { passive: false });
    }

    function listenToKeys(canvas) {
        const keys = {
            ArrowRight: () => step(1),
            ArrowLeft: () => step(-1),
            '+': () => magnify(1.5, middle()),
            '=': () => magnify(1.5, middle()),
            '-': () => magnify(1 / 1.5, middle()),
            0: fitBank,
        };
        const shifted = {
            ArrowRight: () => move(60, 0),
            ArrowLeft: () => move(-60, 0),
            ArrowDown: () => move(0, 60),
            ArrowUp: () => move(0, -60),
            '+': keys['+'],
        };
        canvas.addEventListener('keydown', (event) => {
            const act = (event.shiftKey ? shifted : keys)[event.key];
            if (act === undefined || event.ctrlKey || event.metaKey || event.altKey) return;
            event.preventDefault();
            safely(act);
        });
    }

    // ---- tolerances

    function setTolerance(tolerance) {
        shown.tolerance = tolerance;
        if (shown.picked >= 0 && !visible(shown.picked)) shown.picked = -1;
        $('slider').value = String(stepOf(tolerance));
        $('exact').value = String(tolerance);
        valid('exact', true);
        if ($('note').classList.contains('refused')) note('');
        showZoom();
        sayPoint();
    }

    // What was typed, read as a decimal number, with commas between thousands or without; the library says whether it is a
    // tolerance.
    function typed(text) {
        const plain = text.trim().replace(/^([0-9]{1,3})((,[0-9]{3})+)(?=\.|$)/, (all, first, rest) => first + rest.replace(/,/g, ''));
        const tolerance = /^-?([0-9]+\.?[0-9]*|\.[0-9]+)(e[-+]?[0-9]+)?$/i.test(plain) ? Number(plain) : NaN;
        const asked = shown.points !== null ? shown : { points: new Int32Array(2), numbers: new Float64Array(1) };
        if (library.zoom(asked.points, asked.numbers, tolerance).number === 5) {
            valid('exact', false);
            note(`Not so: ${Words.badTolerance}`, true);
            return;
        }
        setTolerance(tolerance);
    }

    // ---- files

    const turns = new Map(); // of each part, how often it was handed a file: the last one counts

    async function take(file, show) {
        const turn = (turns.get(show) || 0) + 1;
        turns.set(show, turn);
        let bytes;
        try {
            bytes = new Uint8Array(await file.slice(0, library.MOST_BYTES).arrayBuffer());
        } catch (error) {
            note(`${file.name}: this cannot be read. Is it a folder, or was it moved?`, true);
            return;
        }
        if (turn === turns.get(show)) safely(() => show(file.name, bytes, file.size));
    }

    // What should never happen is said, and the module begun anew, so that the next chart finds it whole.
    function safely(act) {
        try {
            act();
        } catch (error) {
            note(`The page itself failed (${error.message}). The next chart begins anew.`, true);
            Library.load(module).then((anew) => {
                library = anew;
            });
        }
    }

    function listenToDrops() {
        const drop = $('drop');
        let inside = 0;
        const over = (event) => (event.target instanceof Element ? event.target.closest('#drop p') : null);
        const hide = () => {
            inside = 0;
            drop.hidden = true;
        };
        const withFiles = (act) => (event) => {
            if (!event.dataTransfer.types.includes('Files')) return;
            event.preventDefault();
            act(event);
        };
        addEventListener('dragenter', withFiles(() => {
            inside++;
            drop.hidden = false;
        }));
        addEventListener('dragover', withFiles((event) => {
            for (const part of drop.children) part.classList.toggle('over', part === over(event));
        }));
        addEventListener('dragleave', () => {
            if (--inside <= 0) hide();
        });
        addEventListener('drop', withFiles((event) => {
            const part = over(event);
            const files = [...event.dataTransfer.files];
            hide();
            if (files.length === 0) note('What was dropped is not a file.', true);
            else if (files.length > 1) note('Drop one file at a time: tonight’s survey on the left, yesterday’s on the right.', true);
            else take(files[0], part !== null && part.dataset.part === 'yesterday' ? showYesterday : showTonight);
        }));
        for (const kind of ['click', 'keydown', 'blur']) addEventListener(kind, hide);
    }

    const baseName = () => shown.name.replace(/\.pbm$/i, '') || 'survey';

    function saveZooms() {
        const zooms = SIX.map((tolerance, k) => oneOfSix(k));
        const under = yesterday === null ? null : yesterday.chart;
        Saved.hand(`${baseName()}-zooms.svg`, 'image/svg+xml', Saved.svg(shown.name, shown.chart, under, zooms, boxOf()));
    }

    function saveScreen() {
        Saved.hand(`${baseName()}-screen.pbm`, 'image/x-portable-bitmap', library.writePbm(shown.screen).file);
    }

    // Where the window alone has changed, the cell in the middle stays there, and the scale, unless all was fitted.
    function redraw() {
        const place = middle();
        palette = View.colours();
        measure();
        at = at.fitted ? null : View.centred($('large'), at.scale, place);
        showAll();
    }

    function listen() {
        const on = (id, kind, act) => $(id).addEventListener(kind, (event) => safely(() => act(event.target)));
        for (const [id, show] of [['tonight', showTonight], ['yesterday', showYesterday]]) {
            on(id, 'change', (input) => {
                const [file] = input.files;
                if (file !== undefined) take(file, show);
                input.value = '';
            });
        }
        on('forget', 'click', forgetYesterday);
        on('slider', 'input', (slider) => setTolerance(toleranceAt(Number(slider.value))));
        on('exact', 'change', (field) => typed(field.value));
        on('bank', 'change', (list) => choose(shown.found.banks[Number(list.value)].start));
        on('nearer', 'click', () => magnify(1.5, middle()));
        on('farther', 'click', () => magnify(1 / 1.5, middle()));
        on('fit', 'click', fitBank);
        on('whole', 'click', fitChart);
        const number = (id) => (/^[-−]?[0-9]+$/.test($(id).value.trim()) ? Number($(id).value.trim().replace('−', '-')) : NaN);
        on('party-x', 'change', () => putParty(number('party-x'), number('party-y')));
        on('party-y', 'change', () => putParty(number('party-x'), number('party-y')));
        on('party-here', 'click', () => putParty(...placeOf(shown.picked)));
        on('save-svg', 'click', saveZooms);
        on('save-pbm', 'click', saveScreen);
        listenToPointers($('large'));
        listenToKeys($('large'));
        listenToDrops();
        matchMedia('(prefers-color-scheme: dark)').addEventListener('change', () => safely(redraw));
        let waiting = 0;
        addEventListener('resize', () => {
            clearTimeout(waiting);
            waiting = setTimeout(() => safely(redraw), 100);
        });
    }

    // Six panels; a click on one shows it large.
    function makePanels() {
        SIX.forEach((tolerance) => {
            $('six').append(new Option('', stepOf(tolerance)));
            const panel = document.createElement('figure');
            const button = document.createElement('button');
            button.type = 'button';
            button.addEventListener('click', () => safely(() => {
                setTolerance(tolerance);
                $('large').scrollIntoView({ block: 'nearest' });
            }));
            button.append(document.createElement('canvas'));
            panel.append(button, document.createElement('figcaption'));
            $('zooms').append(panel);
        });
    }

    // A chart is drawn before the first one comes, so that the browser has compiled all that draws it: a ragged disc.
    function warm() {
        const pixels = new Uint8Array(64 * 512);
        for (let y = 0; y < 512; y++) {
            const half = Math.round(Math.sqrt(Math.max(0, 200 ** 2 - (y - 256) ** 2))) - (y * 37) % 23;
            for (let x = 256 - half; x < 256 + half; x++) pixels[64 * y + (x >> 3)] |= 128 >> (x & 7);
        }
        const picture = library.writePbm({ width: 512, height: 512, pixels }).file;
        for (let k = 0; k < 4; k++) showTonight('warm.pbm', picture, picture.length);
        shown = nothing();
        at = null;
    }

    async function begin(bytes) {
        module = bytes;
        makePanels();
        library = await Library.load(module);
        warm();
        emptyBanks();
        showAll();
        setTolerance(4);
        $('tonight-name').textContent = 'none yet';
        $('time-says').textContent = '–';
        say('No survey yet.');
        listen();
        document.documentElement.dataset.ready = 'yes';
    }

    return { begin };
})();
