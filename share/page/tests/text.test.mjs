/** Tries what the page knows of texts. */
import assert from 'node:assert';
import test from 'node:test';
import {
    completion, definition, described, functionName, levels, names, parts, pasted, prompt, refusedText, spoken, stepLines, symbolAt, vectorLine,
} from '../text.mjs';
import { Written } from '../worker.mjs';

test('a report is told from what is written before it', () => {
    const report = 'DOMAIN ERROR\nHALF[1] Z←N÷2\n           ^\n';
    assert.deepStrictEqual(parts(`1 2\n\n${report}`, 3), [{ text: '1 2\n\n', isFault: false }, { text: report, isFault: true }]);
    assert.deepStrictEqual(parts(report, 3), [{ text: report, isFault: true }]);
    assert.deepStrictEqual(parts('1\nDEFN ERROR\n', 9), [{ text: '1\n', isFault: false }, { text: 'DEFN ERROR\n', isFault: true }]);
    for (const text of [report, 'DEFN ERROR\n', 'no line feed']) assert.deepStrictEqual(parts(text, 0), [{ text, isFault: false }]);
    assert.deepStrictEqual(parts('', 0), []);
});

test('headers, names, standing calls', () => {
    assert.deepStrictEqual(['F', 'F B', 'A F B', 'Z←F', 'Z←A F B;T;⎕IO', 'F B;A'].map(functionName), Array(6).fill('F'));
    const found = names('∇ Z←MEAN V\nM N 2 3\nT C 4\nS N\nU\n');
    assert.deepStrictEqual(found.functions, [{ name: 'MEAN', header: 'Z←MEAN V' }]);
    assert.deepStrictEqual(found.variables.map(described), ['numbers, 2 by 3', 'characters, 4', 'a number', 'no value']);
    assert.deepStrictEqual(levels('G[1] *\nF[12]\n'), [{ name: 'G', number: 1, isSuspended: true }, { name: 'F', number: 12, isSuspended: false }]);
});

test('the prompt has six places', () => {
    assert.deepStrictEqual([0, 3, 12, 999].map(prompt), ['      ', '[3]   ', '[12]  ', '[999] ']);
});

test('names, system names and commands are completed as far as all agree', () => {
    const known = ['MARKS', 'MEAN', 'MEANS', '∆x'];
    assert.deepStrictEqual(completion('1+ME', known), { word: 'ME', rest: 'AN', found: ['MEAN', 'MEANS'] });
    assert.strictEqual(completion('MA', known).rest, 'RKS');
    assert.strictEqual(completion('⎕L', known).rest, 'C');
    assert.strictEqual(completion(')f', known).rest, 'NS');
    assert.deepStrictEqual(completion('1+', known).found, []);
    assert.deepStrictEqual(completion('12', known).found, []);
    assert.strictEqual(completion('2×∆', known).rest, 'x');
});

test('a definition is typed by its header, its lines and ∇', () => {
    assert.deepStrictEqual(definition('Z←F X\nZ←X\n\n'), { lines: ['∇Z←F X', 'Z←X', '∇'] });
    assert.deepStrictEqual([definition('').at, definition('F\n1\n ∇\n1').at, definition(`F\n${'1'.repeat(501)}`).at], [0, 2, 1]);
    assert.strictEqual(definition(`F\n${'1'.repeat(501)}`).why, 'Line 1 has over 500 characters.');
});

test('a definition that is refused is told by its line', () => {
    assert.match(refusedText({ at: 0, report: '' }), /^DEFN ERROR. The header is refused: /);
    assert.strictEqual(refusedText({ at: 3, report: 'SYNTAX ERROR\n' }), 'DEFN ERROR. Line 3 is refused.\n\nSYNTAX ERROR\n');
    assert.strictEqual(refusedText({ number: 8 }), 'It is not defined: memory has run out.');
});

test('stops and traces are set by a line, and a step by lines that leave the stops as they were', () => {
    assert.strictEqual(vectorLine('STOP', 'F', [1, 3]), "1 3 ⎕STOP 'F'");
    assert.strictEqual(vectorLine('TRACE', '∆F', []), "(⍳0) ⎕TRACE '∆F'");
    const all = Array.from({ length: 300 }, (_, i) => i + 1);
    assert.strictEqual(vectorLine('STOP', 'F', all), null);
    assert.deepStrictEqual(stepLines('F', 3, [2]), ["(⍳4) ⎕STOP 'F'", '→⎕LC', "2 ⎕STOP 'F'"]);
    assert.deepStrictEqual(stepLines('F', 300, all), ['→⎕LC']);
    assert.strictEqual(stepLines('F', 301, all), null);
});

test('the symbol at the cursor', () => {
    const at = (line, place) => symbolAt(line, place);
    assert.deepStrictEqual([at('2⍴⍳5', 1), at('2⍴⍳5', 2), at('2⍴⍳5', 4), at('2⍴⍳5', 0)], ['⍴', '⍳', '¯', '¯']);
    assert.deepStrictEqual([at("2 ⎕STOP 'F'", 2), at("2 ⎕STOP 'F'", 5), at('⎕←3', 0), at('⎕io', 1)], ['⎕STOP', '⎕STOP', '⎕', '⎕IO']);
    assert.deepStrictEqual([at(' )si', 2), at('(2)', 2), at(')', 1)], [')SI', ')', ')']);
    assert.deepStrictEqual([at('⍳ 5', 1), at('  ⍳', 0), at('', 0), at('ABC', 1)], ['⍳', '⍳', '', '_']);
});

test('what is read aloud tells the character at the caret by its meaning', () => {
    const report = 'DOMAIN ERROR\nHALF[1] Z←N÷2\n           ^\n';
    assert.strictEqual(spoken(parts(`1 2\n${report}`, 3), { '÷': 'divide' }), '1 2\nDOMAIN ERROR: HALF[1] Z←N÷2, at ÷ divide');
    assert.strictEqual(spoken(parts('VALUE ERROR\n      Q\n      ^\n', 2), {}), 'VALUE ERROR: Q, at Q');
    assert.strictEqual(spoken(parts('DEFN ERROR\n', 9), {}), 'DEFN ERROR');
    assert.strictEqual(spoken(parts('\n\n', 0), {}), '');
    assert.ok(spoken(parts('1 '.repeat(1000), 0), {}).endsWith(' … 1,399 characters more'));
});

test('what is pasted is typed line by line, but for the last', () => {
    assert.deepStrictEqual(pasted('A←1\r\nB←2\nC'), { lines: ['A←1', 'B←2'], last: 'C' });
});

test('of what is too long the middle is left out', () => {
    const written = new Written();
    for (let i = 0; i < 30; i++) written.add('x'.repeat(9999) + '\n');
    const { prefix, cut, suffix } = written.take();
    assert.strictEqual(prefix.length + cut + suffix.length, 300000);
    assert.ok(cut > 0 && prefix.length === 100000);
    assert.deepStrictEqual(written.take(), { prefix: '', cut: 0, suffix: '' });
});
