// A browser without a window, driven by the W3C's WebDriver protocol: as much of it as web/check asks for.
'use strict';

const { spawn } = require('node:child_process');
const { mkdtempSync, rmSync } = require('node:fs');
const { tmpdir } = require('node:os');
const { join } = require('node:path');

const ELEMENT = 'element-6066-11e4-a52e-4f735466cecf';

// Starts the driver on a port of its own choice; it says which.
function start(program) {
    return new Promise((done, failed) => {
        const driver = spawn(program, ['--port=0'], { stdio: ['ignore', 'pipe', 'inherit'] });
        let said = '';
        driver.on('error', failed);
        driver.stdout.on('data', (text) => {
            said += text;
            const port = /successfully on port ([0-9]+)/.exec(said);
            if (port !== null) done({ driver, port: port[1] });
        });
    });
}

async function open({ downloads } = {}) {
    const { driver, port } = await start('chromedriver');
    const home = mkdtempSync(join(tmpdir(), 'planner-'));
    const ask = async (method, path, body) => {
        const answer = await fetch(`http://127.0.0.1:${port}${path}`, {
            method,
            body: method === 'POST' ? JSON.stringify(body === undefined ? {} : body) : undefined,
        });
        const { value } = await answer.json();
        if (!answer.ok) throw new Error(`${method} ${path}: ${value.message}`);
        return value;
    };
    const words = ['--headless=new', '--no-sandbox', '--disable-gpu', '--force-device-scale-factor=1', `--user-data-dir=${home}`];
    const prefs = downloads === undefined ? {} : { 'download.default_directory': downloads };
    const asked = { 'goog:chromeOptions': { args: words, prefs }, 'goog:loggingPrefs': { browser: 'ALL' } };
    const { sessionId } = await ask('POST', '/session', { capabilities: { alwaysMatch: asked } }).catch((error) => {
        driver.kill();
        throw error;
    });
    const at = `/session/${sessionId}`;
    const find = async (selector) => (await ask('POST', `${at}/element`, { using: 'css selector', value: selector }))[ELEMENT];

    return {
        go: (url) => ask('POST', `${at}/url`, { url }),
        size: (width, height) => ask('POST', `${at}/window/rect`, { width, height }),
        run: (script, ...args) => ask('POST', `${at}/execute/sync`, { script, args }),
        type: async (selector, text) => ask('POST', `${at}/element/${await find(selector)}/value`, { text }),
        click: async (selector) => ask('POST', `${at}/element/${await find(selector)}/click`),
        // A click at a place of an element, from its middle on; with shift, if asked for.
        clickAt: async (selector, x, y, shift = false) => {
            const origin = { [ELEMENT]: await find(selector) };
            const keys = { type: 'key', id: 'keys', actions: [{ type: 'keyDown', value: '\uE008' }] };
            const pointer = {
                type: 'pointer', id: 'mouse', actions: [
                    { type: 'pointerMove', duration: 0, origin, x: Math.round(x), y: Math.round(y) },
                    { type: 'pointerDown', button: 0 }, { type: 'pointerUp', button: 0 }],
            };
            if (shift) await ask('POST', `${at}/actions`, { actions: [keys] });
            await ask('POST', `${at}/actions`, { actions: [pointer] });
            await ask('DELETE', `${at}/actions`);
        },
        // Chromium's own commands: dark colours, and the eyes of others.
        command: (cmd, params) => ask('POST', `${at}/goog/cdp/execute`, { cmd, params }),
        picture: async () => Buffer.from(await ask('GET', `${at}/screenshot`), 'base64'),
        // What the page wrote to its console since it was last asked.
        console: () => ask('POST', `${at}/se/log`, { type: 'browser' }),
        close: async () => {
            await ask('DELETE', at).catch(() => undefined);
            driver.kill();
            rmSync(home, { recursive: true, force: true });
        },
    };
}

module.exports = { open };
