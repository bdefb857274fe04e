// What the page saves: the six zooms as one SVG picture, in its light colours, for the wall of the office.
'use strict';

const Saved = (() => {
    const SIDE = 384; // the longer side of a panel
    const COLUMN = 400;

    // Letters that XML has no room for are left out.
    const escaped = (text) =>
        text.replace(/[^\t\n\r\x20-\uD7FF\uE000-\uFFFD]/g, '').replace(/[&<>"]/g, (letter) => `&#${letter.charCodeAt(0)};`);

    const path = (points) => {
        let text = '';
        for (let k = 0; k < points.length; k += 2) text += `${k === 0 ? 'M' : k === 2 ? 'L' : ' '}${points[k]},${points[k + 1]}`;
        return text + 'Z';
    };

    // The sand of a chart within a box, a rectangle for each run of cells in a row.
    function sand(chart, box) {
        let text = '';
        for (let y = Math.max(0, Math.floor(box.top)); y < Math.min(chart.height, box.bottom); y++) {
            const end = Math.min(chart.width, Math.ceil(box.right));
            for (let x = Math.max(0, Math.floor(box.left)); x < end; x++) {
                const from = x;
                while (x < end && Banks.isSand(chart, x, y)) x++;
                if (x > from) text += `M${from},${y}h${x - from}v1h${from - x}z`;
            }
        }
        return text;
    }

    const dots = (places) => places.map(([x, y]) => `M${x},${y}h0`).join('');

    const crosses = (places, r) =>
        places.map(([x, y]) => `M${x - r},${y - r}l${2 * r},${2 * r}m0,${-2 * r}l${-2 * r},${2 * r}`).join('');

    // `zooms` have points, lost and lasting places, a title and a caption; `box` is what of the charts is shown.
    function svg(name, chart, yesterday, zooms, box) {
        const view = View.around(box);
        const wide = view.right - view.left;
        const high = view.bottom - view.top;
        const scale = Math.min(SIDE / Math.max(wide, high), 32);
        const row = scale * high + 56;
        const one = 1 / scale;
        const panels = zooms.map((zoom, k) => {
            const x = 12 + COLUMN * (k % 3);
            const y = 12 + row * Math.floor(k / 3);
            return `<svg x="${x}" y="${y}" width="${scale * wide}" height="${scale * high}" viewBox="${view.left} ${view.top} ${wide} ${high}">
<use href="#sand"/>
<path class="line" d="${path(zoom.points)}"/>
<path class="stays" d="${dots(zoom.lasting)}"/>
<path class="lost" d="${crosses(zoom.lost, 3 * one)}"/>
</svg>
<text x="${x}" y="${y + scale * high + 18}" class="word">${escaped(zoom.title)}</text>
<text x="${x}" y="${y + scale * high + 36}">${escaped(zoom.caption)}</text>`;
        });
        const below = 2 * row + 24;
        return `<svg xmlns="http://www.w3.org/2000/svg" viewBox="0 0 ${3 * COLUMN + 8} ${below + 20}" font-family="sans-serif" font-size="13">
<title>${escaped(name)} at six zooms</title>
<style>.paper{fill:#fff}.water{fill:#f4f9fb}.sand{fill:#b58633}.old{fill:#b4d0ec}text{fill:#1d2429}.word{font-weight:bold}
.line,.stays,.lost{fill:none;stroke:#171206;stroke-linejoin:round;stroke-linecap:round}
.line{stroke-width:${1.2 * one}}.stays{stroke-width:${5 * one}}.lost{stroke:#9c2c05;stroke-width:${1.6 * one}}</style>
<defs><g id="sand" shape-rendering="crispEdges">
<rect class="water" x="${view.left}" y="${view.top}" width="${wide}" height="${high}"/>
<path class="old" d="${yesterday === null ? '' : sand(yesterday, view)}"/>
<path class="sand" d="${sand(chart, view)}"/>
</g></defs>
<rect class="paper" width="100%" height="100%"/>
${panels.join('\n')}
<text x="12" y="${below}">${escaped(name)}. Dots are the points of the widest zoom. Crosses are points that a zoom has dropped since the one before it.</text>
</svg>
`;
    }

    // Hands a file to the browser, as if it had been downloaded.
    function hand(name, type, content) {
        const link = document.createElement('a');
        link.href = URL.createObjectURL(new Blob([content], { type }));
        link.download = name;
        link.click();
        setTimeout(() => URL.revokeObjectURL(link.href), 10000);
    }

    return { svg, hand };
})();
