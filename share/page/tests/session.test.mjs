/** Tries the worker and the session of the page, each against a stand-in for the other. MODULE names the module's file. */
import assert from 'node:assert';
import test from 'node:test';
import { Session } from '../session.mjs';
import { Overtaken } from '../store.mjs';
import { work } from '../worker.mjs';
import { moduleOf } from './module.mjs';

const wait = milliseconds => new Promise(done => setTimeout(done, milliseconds));

/** A worker in this process: what it tells, and how to send to it. */
class Told {
    messages = [];

    constructor() {
        this.port = { postMessage: message => this.messages.push(message) };
        work(this.port);
    }

    send(message) {
        this.port.onmessage({ data: message });
    }

    /** All that was written. On a slow machine a part of it is told while a line runs. */
    written() {
        return this.messages.map(it => it.prefix ?? '').join('');
    }

    async until(what, count = 1) {
        for (let i = 0; i < 1000 && this.messages.filter(it => it.what === what).length < count; i++) await wait(5);
        return this.messages.filter(it => it.what === what).at(-1);
    }
}

function begun(pending = [], most) {
    const told = new Told();
    told.send({ what: 'begin', module: moduleOf(process.env.MODULE), bytes: new Uint8Array(), pending, most });
    return told;
}

test('the worker tells what lines write, then the names, then the file', async () => {
    const told = begun();
    await told.until('saved');
    told.send({ what: 'lines', lines: ['X←2+3×4', 'X'] });
    await told.until('saved', 2);
    const messages = told.messages.filter(it => it.what !== 'running');
    assert.deepStrictEqual(messages.map(it => it.what), ['opened', 'state', 'saved', 'typed', 'ended', 'typed', 'ended', 'state', 'saved']);
    assert.strictEqual(told.written(), '14\n');
    assert.strictEqual(messages[7].names, 'X N\n');
    assert.match(Buffer.from(messages[8].bytes).toString(), /"nums":\[14\]/);
});

test('a definition that was open goes on', async () => {
    const told = begun(['∇Z←F X', 'Z←X+1']);
    assert.strictEqual((await told.until('opened')).next, 2);
    told.send({ what: 'lines', lines: ['∇', 'F 4'] });
    await told.until('ended', 2);
    assert.strictEqual(told.written(), '5\n');
});

test('an interrupt ends what runs, and gives back the lines that were to follow', async () => {
    const told = begun();
    told.send({ what: 'lines', lines: ['∇LOOP', '→1', '∇', 'LOOP', 'A←1', 'B←2'] });
    await told.until('running');
    told.send({ what: 'interrupt' });
    await told.until('ended', 4);
    assert.match(told.written(), /INTERRUPT\nLOOP\[1\]/);
    assert.deepStrictEqual(told.messages.filter(it => it.what === 'ended').map(it => it.fault), [0, 0, 0, 10]);
    assert.deepStrictEqual((await told.until('left')).lines, ['A←1', 'B←2']);
});

test('where memory runs out the line is told by its number, and the next one is done', async () => {
    const told = begun([], 6n << 20n);
    told.send({ what: 'lines', lines: ['⍳1000000', '2+3'] });
    await told.until('ended', 2);
    assert.deepStrictEqual(told.messages.filter(it => it.what === 'ended').map(it => it.number), [8, 0]);
    assert.ok(told.written().endsWith('5\n'));
});

test('the lines of a function are told with its stops and traces', async () => {
    const told = begun();
    told.send({ what: 'lines', lines: ['∇Z←F X', 'Z←X', 'Z←Z+1', '∇', "2 ⎕STOP 'F'", "1 2 ⎕TRACE 'F'"] });
    await told.until('saved', 2);
    told.send({ what: 'listing', name: 'F', question: 1 });
    told.send({ what: 'listing', name: 'G', question: 2 });
    const answers = told.messages.filter(it => it.what === 'listing').map(it => it.found);
    assert.deepStrictEqual(answers, [{ text: 'Z←F X\nZ←X\nZ←Z+1\n', stop: [2], trace: [1, 2] }, null]);
});

test('a definition that is refused is told by its line, and no line of it is a statement', async () => {
    const told = begun();
    const define = async lines => {
        const count = told.messages.filter(it => it.what === 'defined').length;
        told.send({ what: 'define', lines });
        const { refused, left } = await told.until('defined', count + 1);
        await told.until('saved', count + 2);
        return [refused, left];
    };
    await told.until('saved');
    assert.deepStrictEqual(await define(['∇Z←F X', 'Z←X', '∇']), [null, 0]);
    assert.deepStrictEqual(await define(['∇A B C D', 'V←1', 'V', '∇']), [{ at: 0, report: '' }, 3]);
    assert.deepStrictEqual(await define(['∇Z←F X', 'Z←X', "L:Z←'AB", 'Z←(', '∇']), [{ at: 2, report: "SYNTAX ERROR\n      Z←'AB\n        ^\n" }, 0]);
    assert.deepStrictEqual(await define(['∇Z←F X', ...Array(999).fill('Z←X'), '∇']), [null, 0]);
    assert.deepStrictEqual(await define(['∇Z←F X', ...Array(1000).fill('Z←X'), '∇']), [{ at: 1000, report: '' }, 0]);
    assert.deepStrictEqual(await define(['∇Z←F X', 'X'.repeat(2001), '∇']), [{ number: 14 }, 1]);
    assert.strictEqual(told.messages.filter(it => it.what === 'state').at(-1).names, '∇ Z←F X\n');
});

test('a worker that dies says so once, and answers nothing more', () => {
    const told = new Told();
    told.send({ what: 'listing', name: 'F', question: 1 });
    assert.deepStrictEqual(told.messages.map(it => it.what), ['died']);
    assert.strictEqual(told.port.onmessage, null);
});

/** A session over a worker that does nothing by itself, and a store that keeps in this process. */
function stood({ notes, put } = {}) {
    const seen = { workers: [], undone: [], notes: [], unkept: [], puts: [] };
    const store = { put: put ?? (async (name, written, file) => { seen.puts.push([written, file]); }) };
    const tell = new Proxy({
        undone: (_, lines) => seen.undone.push(lines), note: text => seen.notes.push(text), unkept: why => seen.unkept.push(why),
    }, { get: (those, name) => those[name] ?? (() => { }) });
    const begin = () => {
        const worker = { sent: [], terminate() { this.isEnded = true; }, postMessage(message) { this.sent.push(message); } };
        seen.workers.push(worker);
        return worker;
    };
    const session = new Session({ begin, module: null, store, name: 'w', file: undefined, notes, tell, noted: () => ({ transcript: [] }) });
    const say = message => seen.workers.at(-1).onmessage({ data: message });
    return { seen, session, say };
}

test('where the worker dies, its lines and those that waited are told, and another begins from the last file', async () => {
    const { seen, session, say } = stood();
    const file = new Uint8Array([1]);
    say({ what: 'opened', number: 0, next: 0 });
    say({ what: 'saved', number: 0, bytes: file, calls: [] });
    session.type(['A', 'B', 'C']);
    say({ what: 'typed', line: 'A', number: 0 });
    say({ what: 'ended', number: 0, next: 0, prefix: '', cut: 0, suffix: '' });
    say({ what: 'typed', line: 'B', number: 0 });
    say({ what: 'died', why: 'a trap' });
    assert.deepStrictEqual(seen.undone, [['A', 'B', 'C']]);
    assert.ok(seen.workers[0].isEnded);
    assert.strictEqual(seen.workers[1].sent[0].bytes, file);
    await wait(100);
    assert.deepStrictEqual(seen.puts.at(-1)[0].since, []);
});

test('where the worker dies in a definition, who waits for it is told', async () => {
    const { session, say } = stood();
    say({ what: 'opened', number: 0, next: 0 });
    const defined = session.define(['∇F', '∇']);
    say({ what: 'died', why: 'a trap' });
    assert.deepStrictEqual(await defined, { why: 'the machine was begun again: a trap' });
});

test('where the machine never begins no other one is tried, and what is kept stays', () => {
    const { seen, session, say } = stood();
    say({ what: 'died', why: 'a trap' });
    assert.deepStrictEqual([seen.workers.length, seen.unkept.length, session.store], [1, 1, null]);
});

test('lines that were typed since the file was made are told when it is opened again', async () => {
    const { seen, session, say } = stood();
    session.type(['∇F', 'LOOP']);
    say({ what: 'typed', line: '∇F', number: 0 });
    say({ what: 'ended', number: 0, next: 1, prefix: '', cut: 0, suffix: '' });
    await wait(100);
    const [notes] = seen.puts.at(-1);
    assert.deepStrictEqual([notes.since, notes.open, notes.written], [['∇F', 'LOOP'], [], 1]);
    assert.deepStrictEqual(stood({ notes }).seen.undone, [['∇F', 'LOOP']]);
    say({ what: 'saved', number: 0, bytes: new Uint8Array(), calls: [] });
    await wait(100);
    assert.deepStrictEqual([seen.puts.at(-1)[0].since, seen.puts.at(-1)[0].open], [['LOOP'], ['∇F']]);
});

test('what another page has written is not written over', async () => {
    const { seen, session, say } = stood({ put: async () => { throw new Overtaken(); } });
    say({ what: 'saved', number: 0, bytes: new Uint8Array(), calls: [] });
    await wait(20);
    assert.strictEqual(seen.unkept.length, 1);
    assert.strictEqual(session.store, null);
});
