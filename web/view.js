// Drawing: the sand of the charts, outlines and marks, on canvases.
'use strict';

const View = (() => {
    const names = ['water', 'sand', 'old', 'edge', 'outline', 'lost', 'next', 'stays', 'pick', 'rim'];

    // The colours of the style sheet, light or dark.
    function colours() {
        const style = getComputedStyle(document.documentElement);
        return Object.fromEntries(names.map((name) => [name, style.getPropertyValue('--' + name).trim()]));
    }

    // #rrggbb as a pixel of an ImageData.
    function pixel(colour) {
        const rgb = parseInt(colour.slice(1), 16);
        return (0xff000000 | (rgb & 255) << 16 | (rgb & 0xff00) | rgb >> 16) >>> 0;
    }

    function lay(pixels, stride, chart, colour) {
        const row = Math.ceil(chart.width / 8);
        for (let y = 0; y < chart.height; y++) {
            for (let k = 0; k < row; k++) {
                const byte = chart.pixels[row * y + k];
                if (byte === 0) continue;
                const at = stride * y + 8 * k;
                for (let bit = 0; bit < 8; bit++) if ((byte & 128 >> bit) !== 0) pixels[at + bit] = colour;
            }
        }
    }

    // The cells of a chart that have water beside them, as a chart: eight at a time.
    function edges(chart) {
        const row = Math.ceil(chart.width / 8);
        const byte = (x, y) => (x < 0 || x >= row || y < 0 || y >= chart.height ? 0 : chart.pixels[row * y + x]);
        const pixels = chart.pixels.map((own, at) => {
            const x = at % row;
            const y = (at - x) / row;
            const left = own >> 1 | byte(x - 1, y) << 7;
            const right = own << 1 | byte(x + 1, y) >> 7;
            return own & ~(left & right & byte(x, y - 1) & byte(x, y + 1));
        });
        return { width: chart.width, height: chart.height, pixels };
    }

    // The sand of both charts, a pixel a cell: yesterday's, with its edges, under tonight's.
    function sand(chart, yesterday, palette) {
        const charts = [yesterday === null ? null : yesterday.chart, chart].filter((one) => one !== null);
        const image = document.createElement('canvas');
        image.width = Math.max(...charts.map((one) => Math.ceil(one.width / 8) * 8));
        image.height = Math.max(...charts.map((one) => one.height));
        const data = new ImageData(image.width, image.height);
        const pixels = new Uint32Array(data.data.buffer);
        if (yesterday !== null) {
            lay(pixels, image.width, yesterday.chart, pixel(palette.old));
            lay(pixels, image.width, yesterday.edges, pixel(palette.edge));
        }
        if (chart !== null) lay(pixels, image.width, chart, pixel(palette.sand));
        image.getContext('2d').putImageData(data, 0, 0);
        return image;
    }

    function bounds(points) {
        const box = { left: Infinity, top: Infinity, right: -Infinity, bottom: -Infinity };
        for (let k = 0; k < points.length; k += 2) {
            box.left = Math.min(box.left, points[k]);
            box.right = Math.max(box.right, points[k]);
            box.top = Math.min(box.top, points[k + 1]);
            box.bottom = Math.max(box.bottom, points[k + 1]);
        }
        return box;
    }

    // A box with water around it, a sixteenth of its longer side.
    function around(box) {
        const margin = Math.max(1, Math.max(box.right - box.left, box.bottom - box.top) / 16);
        return { left: box.left - margin, top: box.top - margin, right: box.right + margin, bottom: box.bottom + margin };
    }

    // How a canvas lies over the chart: so many pixels a cell, and a place in its middle.
    const centred = (canvas, scale, [x, y]) =>
        ({ scale, left: x - canvas.width / scale / 2, top: y - canvas.height / scale / 2 });

    // So that a box and some water stand in it.
    function fit(canvas, box) {
        const { left, top, right, bottom } = around(box);
        const scale = Math.min(canvas.width / (right - left), canvas.height / (bottom - top), 64 * ratio());
        return centred(canvas, scale, [(left + right) / 2, (top + bottom) / 2]);
    }

    const ratio = () => Math.min(window.devicePixelRatio || 1, 3);

    // Makes a canvas as fine as the screen that it stands on.
    function fine(canvas) {
        const width = Math.max(1, Math.round(canvas.clientWidth * ratio()));
        const height = Math.max(1, Math.round(canvas.clientHeight * ratio()));
        if (canvas.width !== width) canvas.width = width;
        if (canvas.height !== height) canvas.height = height;
    }

    const onCanvas = (at, x, y) => [(x - at.left) * at.scale, (y - at.top) * at.scale];

    function drawSand(canvas, at, image, palette) {
        const to = canvas.getContext('2d');
        to.setTransform(1, 0, 0, 1, 0, 0);
        to.fillStyle = palette.water;
        to.fillRect(0, 0, canvas.width, canvas.height);
        if (image === null) return to;
        to.imageSmoothingEnabled = at.scale < 1;
        to.drawImage(image, -at.left * at.scale, -at.top * at.scale, image.width * at.scale, image.height * at.scale);
        return to;
    }

    function drawOutline(to, at, points, palette, width) {
        to.beginPath();
        for (let k = 0; k < points.length; k += 2) to.lineTo(...onCanvas(at, points[k], points[k + 1]));
        to.lineWidth = width * ratio();
        to.lineJoin = 'round';
        to.strokeStyle = palette.outline;
        to.stroke();
    }

    // One path for all marks of a kind.
    function marks(to, at, points, size, shape) {
        const r = size * ratio();
        to.beginPath();
        for (const [x, y] of points) shape(to, ...onCanvas(at, x, y), r);
    }

    const dot = (to, x, y, r) => {
        to.moveTo(x + r, y);
        to.arc(x, y, r, 0, 2 * Math.PI);
    };
    const cross = (to, x, y, r) => {
        to.moveTo(x - r, y - r);
        to.lineTo(x + r, y + r);
        to.moveTo(x + r, y - r);
        to.lineTo(x - r, y + r);
    };
    const triangle = (to, x, y, r) => {
        to.moveTo(x, y - 1.2 * r);
        to.lineTo(x + 1.2 * r, y + r);
        to.lineTo(x - 1.2 * r, y + r);
        to.closePath();
    };

    // Marks stand on a pale rim, so that they are seen on sand and on water, whatever the eyes; some are filled with it.
    function strokeOnRim(to, palette, width, colour, filled = false) {
        to.lineWidth = (width + 1.8) * ratio();
        to.strokeStyle = palette.rim;
        to.stroke();
        to.fillStyle = palette.rim;
        if (filled) to.fill();
        to.lineWidth = width * ratio();
        to.strokeStyle = colour;
        to.stroke();
    }

    function drawStays(to, at, points, palette, size) {
        marks(to, at, points, size, dot);
        to.fillStyle = palette.stays;
        to.fill();
    }

    function drawNext(to, at, points, palette, size) {
        marks(to, at, points, size, triangle);
        strokeOnRim(to, palette, 2, palette.next, true);
    }

    function drawLost(to, at, points, palette, size, width = 2) {
        marks(to, at, points, size, cross);
        strokeOnRim(to, palette, width, palette.lost);
    }

    // A ring around a place: the point that was picked, or where cells touch only at a corner. At most 500 are drawn, of
    // those that lie in the picture.
    function drawRings(to, at, points, palette, colour, size) {
        const { width, height } = to.canvas;
        const seen = [];
        for (const [x, y] of points) {
            const [px, py] = onCanvas(at, x, y);
            if (px >= 0 && py >= 0 && px <= width && py <= height) seen.push([x, y]);
            if (seen.length === 500) break;
        }
        marks(to, at, seen, size, dot);
        strokeOnRim(to, palette, 2.5, colour);
    }

    // A picture of one bit a pixel, black on white.
    function drawBits(canvas, picture) {
        const data = new ImageData(picture.width, picture.height);
        const pixels = new Uint32Array(data.data.buffer).fill(0xffffffff);
        lay(pixels, picture.width, picture, 0xff000000);
        canvas.getContext('2d').putImageData(data, 0, 0);
    }

    return {
        colours, edges, sand, bounds, around, centred, fit, fine, ratio, onCanvas, drawSand, drawOutline, drawStays, drawNext, drawLost, drawRings,
        drawBits,
    };
})();
