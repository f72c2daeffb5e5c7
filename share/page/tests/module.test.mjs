/** Tries the module: what it gives to a host, its limits, running out of memory, the guides' lines, the allocator. MODULE names its file, and CONTENT that
 * of what the page shows. */
import assert from 'node:assert';
import fs from 'node:fs';
import test from 'node:test';
import { BUFFER, MEMORY, Machine, NO_FUNCTION, NO_SESSION } from '../machine.mjs';
import { standingCalls } from '../worker.mjs';
import { play } from './conformance.mjs';
import { moduleOf } from './module.mjs';

const STACK = 1 << 20, STEPS = 1000000n;
const module = moduleOf(process.env.MODULE);
const share = new URL('../../', import.meta.url);

function opened(file = new Uint8Array(), most) {
    const machine = new Machine(module, most);
    assert.strictEqual(machine.open(file), 0);
    return machine;
}

function typed(machine, ...lines) {
    return lines.map(line => play(machine, Buffer.from(line), STEPS, STEPS)).join('');
}

test('the module imports nothing and exports its calls and no others', () => {
    assert.deepStrictEqual(WebAssembly.Module.imports(module), []);
    const calls = 'open type advance interrupt is_idle next_line fault gather take save names levels listing'.split(' ').map(it => `page_${it}`);
    const found = WebAssembly.Module.exports(module).map(it => it.name).filter(it => it.startsWith('page_') || it.startsWith('apl_'));
    assert.deepStrictEqual(found.sort(), [...calls, 'apl_free', 'apl_most', 'apl_place', 'apl_room'].sort());
});

test('a place of zeros holds no session', () => {
    const machine = new Machine(module);
    assert.ok(machine.isIdle());
    assert.deepStrictEqual([machine.type('1'), machine.advance(1), machine.interrupt(), machine.gather(), machine.save().number], Array(5).fill(NO_SESSION));
});

test('a session: lines, an open definition, names, standing calls, a listing, the file', () => {
    const machine = opened();
    assert.strictEqual(typed(machine, '2+3×4'), '14\n');
    typed(machine, '∇Z←HALF N');
    assert.strictEqual(machine.nextLine(), 1);
    typed(machine, 'Z←N÷2');
    assert.strictEqual(machine.nextLine(), 2);
    typed(machine, '∇', 'M←2 3⍴⍳6', "T←'AB'");
    assert.strictEqual(machine.nextLine(), 0);
    assert.strictEqual(typed(machine, '1+HALF 7'), 'DOMAIN ERROR\nHALF[1] Z←N÷2\n           ^\n');
    assert.strictEqual(machine.levels().text, 'HALF[1] *\n');
    assert.deepStrictEqual(machine.names().text.split('\n').filter(it => !/^[NZ]\b/.test(it)), ['∇ Z←HALF N', 'M N 2 3', 'T C 2', '']);
    assert.strictEqual(machine.listing('HALF').text, 'Z←HALF N\nZ←N÷2\n');
    assert.strictEqual(machine.listing('M').number, NO_FUNCTION);
    const { bytes } = machine.save();
    assert.deepStrictEqual(standingCalls(bytes), ['Z←N÷2']);
    assert.strictEqual(typed(opened(bytes), 'N←8', '→⎕LC'), '5\n');
});

test('a damaged file is refused by its number, and the session stays', () => {
    const machine = opened();
    typed(machine, 'A←7');
    assert.strictEqual(machine.open(Buffer.from('{')), 1);
    assert.strictEqual(machine.open(Buffer.from('{}')), 2);
    assert.strictEqual(machine.open(Buffer.from('['.repeat(100000))), 1);
    assert.strictEqual(typed(machine, 'A'), '7\n');
});

test('what runs refuses a line and the file, and is interrupted', () => {
    const machine = opened();
    typed(machine, '∇LOOP', '→1', '∇');
    assert.deepStrictEqual([machine.type('LOOP'), machine.advance(10)], [0, 0]);
    assert.deepStrictEqual([machine.type('1'), machine.save().number, machine.isIdle()], [16, 16, false]);
    assert.strictEqual(machine.interrupt(), 0);
    machine.gather();
    assert.strictEqual(Buffer.concat([...machine.pieces()]).toString(), 'INTERRUPT\nLOOP[1] →1\n        ^\n');
});

test('a fault is told by its number until its report is gathered, and a text is none', () => {
    const machine = opened(), told = [];
    for (const line of [')FOO', '1÷0', "'DEFN ERROR'", '∇F[', '2']) {
        machine.type(line);
        machine.advance(100);
        told.push(machine.fault());
        machine.gather();
        told.push(machine.fault());
    }
    assert.deepStrictEqual(told, [12, 0, 3, 0, 0, 0, 9, 0, 0, 0]);
    assert.strictEqual(new Machine(module).fault(), 0);
});

test('output of many pieces is taken whole', () => {
    const text = typed(opened(), '⍳1000000');
    assert.strictEqual(text.length, 6888896);
    assert.ok(text.endsWith(' 999999 1000000\n'));
});

test('the limits are reached without a trap, on a part of the stack', () => {
    const machine = opened(), memory = machine.calls.memory;
    new Uint8Array(memory.buffer, 0, STACK / 2).fill(0xA5);
    const deep = n => typed(machine, `${'('.repeat(n)}1${')'.repeat(n)}`);
    assert.strictEqual(deep(249), '1\n');
    assert.match(deep(250), /^LIMIT ERROR\n/);
    typed(machine, '∇Z←F N', 'Z←0', '→(N=0)/0', 'Z←1+F N-1', '∇');
    assert.strictEqual(typed(machine, 'F 255'), '255\n');
    assert.match(typed(machine, 'F 256'), /^LIMIT ERROR\nF\[3\]/);
    assert.strictEqual(typed(machine, '⍴⍴(8⍴1)⍴7'), '8\n');
    assert.match(typed(machine, '⍴⍳1000001'), /^LIMIT ERROR/);
    assert.ok(new Uint8Array(memory.buffer, 0, STACK / 2).every(it => it === 0xA5), 'over half of the stack is used');
});

test('where memory runs out the number is 8, and the next call works', () => {
    const machine = opened(new Uint8Array(), 6n << 20n);
    assert.deepStrictEqual([machine.type('⍳1000000'), machine.advance(100)], [0, MEMORY]);
    assert.strictEqual(machine.interrupt(), 0);
    assert.match(typed(machine, '2+3'), /\n5\n$/);
    assert.strictEqual(machine.save().number, 0);
});

test('a buffer that is too small is told its size', () => {
    const machine = opened(), calls = machine.calls, size = calls.apl_room(8n), place = calls.apl_place(), at = calls.apl_room(16n);
    assert.strictEqual(calls.page_open(at, 0n, place), 0);
    assert.strictEqual(calls.page_save(place, at, 16n, size), BUFFER);
    assert.strictEqual(new DataView(calls.memory.buffer).getBigUint64(Number(size), true), 64n);
});

test('the examples of the language bar are right', () => {
    const lines = fs.readFileSync(new URL('page/examples.txt', share), 'utf8').split('\n').filter(it => it.includes('\t'));
    assert.ok(lines.length > 40);
    for (const line of lines) {
        const [, example, answer] = line.split('\t');
        assert.strictEqual(typed(opened(), example), answer + '\n', line);
    }
});

test('the lines of the guides are answered as they are shown', () => {
    let count = 0;
    for (const { workspace, steps } of JSON.parse(fs.readFileSync(process.env.CONTENT)).pages) {
        const begin = () => opened(Buffer.from(workspace ?? ''));
        let machine = begin();
        for (const { anew, lines } of steps.flatMap(it => it.blocks).filter(it => it.kind === 'apl')) {
            if (anew) machine = begin();
            const answers = lines.filter(it => !it.typed).map(it => it.text + '\n').join('');
            const those = lines.filter(it => it.typed).map(it => it.text);
            assert.strictEqual(typed(machine, ...those), answers, those.join('\n'));
            count += those.length;
        }
    }
    assert.ok(count > 200);
});

test('each sample workspace opens', () => {
    const names = fs.readdirSync(new URL('workspaces/', share)).filter(it => it.endsWith('.json'));
    assert.strictEqual(names.length, 6);
    for (const name of names) opened(fs.readFileSync(new URL(`workspaces/${name}`, share)));
});

test('the allocator: blocks keep their bytes, none overlap, all is had again', () => {
    const { calls } = new Machine(module, 32n << 20n), live = [];
    let seed = 1, refused = 0;
    const random = n => {
        seed = Math.imul(seed, 1103515245) + 12345 >>> 0;
        return Math.floor(seed / 4294967296 * n);
    };
    const check = ({ at, size, mark }) => {
        const bytes = new Uint8Array(calls.memory.buffer, at, size);
        assert.ok(bytes[0] === mark && bytes[size - 1] === mark && bytes[size >> 1] === mark, 'a block has changed');
    };
    for (let i = 0; i < 200000; i++) {
        if (live.length < 300 && random(2)) {
            const kind = random(100), size = 1 + random(kind < 70 ? 300 : kind < 95 ? 20000 : 3000000);
            const at = Number(calls.apl_room(BigInt(size)));
            if (at === 0) {
                refused++;
                continue;
            }
            assert.strictEqual(at % 16, 0);
            assert.ok(live.every(it => it.at + it.size <= at || at + size <= it.at), 'two blocks overlap');
            const mark = random(256);
            new Uint8Array(calls.memory.buffer, at, size).fill(mark);
            live.push({ at, size, mark });
        } else if (live.length) {
            const k = random(live.length), it = live[k];
            check(it);
            calls.apl_free(BigInt(it.at));
            live[k] = live.at(-1);
            live.pop();
        }
    }
    assert.ok(refused > 0, 'the bound of memory was never met');
    live.forEach(it => { check(it); calls.apl_free(BigInt(it.at)); });
    assert.notStrictEqual(calls.apl_room(BigInt(calls.memory.buffer.byteLength - (3 << 20))), 0n, 'one block of all');
});
