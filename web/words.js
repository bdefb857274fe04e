// Why a call hands nothing out, in words: what is wrong, with its number, and what to do. The library decides and gives
// the number; what is looked up here is only put into the sentence.
'use strict';

const Words = (() => {
    const GREATEST = 999999999; // that is read as a number; what is longer is told as over it

    const many = (n) => (n > GREATEST ? `over ${many(GREATEST)}` : n.toLocaleString('en-GB'));
    const counted = (n, one, more = `${one}s`) => `${many(n)} ${n === 1 ? one : more}`;
    const cells = (n) => counted(n, 'cell');
    const place = ([x, y]) => `(${x}, ${y})`;
    const refusal = (text, number) => `${text} (refusal ${number}).`;

    const isSpace = (byte) => byte === 32 || (byte >= 9 && byte <= 13);
    const isDigit = (byte) => byte >= 48 && byte <= 57;

    // What a PBM file says of itself, as far as it can be read: P1 or P4, the sizes, where its raster begins; and what
    // stands in the way of the next.
    function header(file) {
        const says = {};
        if (file[0] !== 80 || (file[1] !== 49 && file[1] !== 52)) return { stopped: 'magic' };
        says.plain = file[1] === 49;
        let at = 2;
        for (const side of ['width', 'height']) {
            const from = at;
            for (;;) {
                if (isSpace(file[at])) at++;
                else if (file[at] === 35) while (at < file.length && file[at] !== 10 && file[at] !== 13) at++;
                else break;
            }
            if (at === from && at < file.length) return { ...says, stopped: `${side}-space` };
            const digits = at;
            while (isDigit(file[at])) at++;
            if (at === digits) return { ...says, stopped: side };
            let first = digits;
            while (first < at - 1 && file[first] === 48) first++;
            says[side] = at - first > 9 ? Infinity : Number(String.fromCharCode(...file.subarray(first, at)));
        }
        if (isSpace(file[at])) return { ...says, from: at + 1 };
        if (file[at] !== 35) return { ...says, stopped: 'raster' };
        while (at < file.length && file[at] !== 10 && file[at] !== 13) at++;
        return { ...says, from: at + 1 };
    }

    function badSize({ width, height }) {
        const side = (n, which) => `${many(n)} cells ${which}, and ${n < 1 ? '1 is the least' : '512 is the most'}`;
        const told = [];
        if (width < 1 || width > 512) told.push(side(width, 'wide'));
        if (height < 1 || height > 512) told.push(side(height, 'high'));
        return told.length === 0 ? 'this chart is not 1 to 512 cells wide and high' : `this chart is ${told.join('; it is ')}`;
    }

    const unreadable = {
        magic: 'this is not a PBM picture: it does not begin with P1 or P4. Save the survey as PBM, the black and white kind ' +
            'of Netpbm',
        'width-space': 'this is not a PBM picture: there is no space after its first two letters',
        width: 'this PBM file does not say, in digits, how many cells it is wide',
        'height-space': 'in this PBM file there is no space after the width',
        height: 'this PBM file does not say, in digits, how many cells it is high',
        raster: 'in this PBM file there is no space after the height, and so no picture',
    };

    // `size` is that of the whole file, of which `file` is what was read.
    function badPicture(file, size) {
        if (size === 0) return 'this file is empty';
        const says = header(file);
        if (size > file.length) {
            return `only the first ${many(file.length)} bytes of a file are read, and the picture is not whole within them`;
        }
        if (says.stopped !== undefined) return unreadable[says.stopped];
        const { width, height, plain, from } = says;
        const is = `this PBM file says that it is ${many(width)} by ${many(height)} cells`;
        const only = (n) => (n === 0 ? 'none is there' : n === 1 ? 'only 1 is there' : `only ${many(n)} are there`);
        if (!plain) {
            const bytes = Math.ceil(width / 8) * height;
            return `${is}, which is ${counted(bytes, 'byte')}, and ${only(Math.max(0, file.length - from))}`;
        }
        let there = 0;
        for (let at = from; at < file.length && there < width * height; at++) {
            if (file[at] === 48 || file[at] === 49) there++;
            else if (file[at] === 35) return `${is}, but after ${cells(there)} there is a comment, which may not stand among cells`;
            else if (!isSpace(file[at])) return `${is}, but after ${cells(there)} there is a byte that is not 0, 1 or white space`;
        }
        return `${is}, ${many(width * height)} in all, and ${only(there)}`;
    }

    // A file that cannot be read as a chart.
    const ofFile = (number, file, size) =>
        refusal(number === 1 ? badSize(header(file)) : number === 12 ? badPicture(file, size) : 'this file cannot be read', number);

    // A walk that does not close, with the places along its bank where cells touch only at a corner.
    function stuck(start, touches) {
        const begin = refusal(`the walk from ${place(start)} never comes back to its start`, 9);
        if (touches.length === 0) return `${begin} It begins in the middle of a straight edge.`;
        const others = touches.length === 1 ? '' : ` and at ${counted(touches.length - 1, 'other place')}`;
        return `${begin} Cells touch only at a corner at ${place(touches[0])}${others}, ringed on the chart: fill or clear a ` +
            'cell there, and load the chart again.';
    }

    // A walk that closes, but passes such places.
    function passes(touches) {
        const where = touches.length === 1 ? `${place(touches[0])}, where cells touch only at a corner`
            : `${many(touches.length)} places where cells touch only at a corner, the first at ${place(touches[0])}`;
        return `The outline passes ${where}, ringed on the chart: it may leave out a part of this bank, or take in another.`;
    }

    const blank = refusal('this chart is blank: it has no sand, and so no outline', 8);

    const tooMany = (walked) =>
        refusal(`this outline has ${many(walked)} points, and 4,096 is the most that a guide holds`, 2) +
        ' Smooth the survey, or cut the chart into smaller ones.';

    const badTolerance = refusal('a squared tolerance is a number from 0 to 4,294,967,296', 5);

    const badParty = 'the party stands at a cell: x and y are whole numbers from −16,383 to 16,383.';

    const other = (call, number) => refusal(`the library does not ${call}`, number);

    return { many, counted, cells, place, ofFile, stuck, passes, blank, tooMany, badTolerance, badParty, other };
})();
