/** Plays the sessions of conformance/ through the module, each line's steps in slices, and compares all that it answers.
 *
 * usage: node conformance.mjs MODULE SLICE     the status is 1 where a session differs */
import fs from 'node:fs';
import { Machine } from '../machine.mjs';
import { isMain, moduleOf } from './module.mjs';

const FOLDER = new URL('../../../conformance/', import.meta.url);

/** The sessions of a file: what is typed, as bytes, and the lines that are answered. conformance/README.md says how they are written. */
export function sessions(area) {
    const found = [];
    for (const line of fs.readFileSync(new URL(area, FOLDER), 'utf8').split('\n')) {
        const mark = line[0], text = line.slice(2), last = found.at(-1);
        if (line.startsWith('= ')) {
            const [, name, steps] = line.split(' ');
            found.push({ area, name, steps: BigInt(steps), typed: [], answer: [] });
        } else if (!last) {
            continue;
        } else if (mark === '>') {
            last.typed.push(Buffer.from(text));
        } else if (mark === 'x') {
            last.typed.push(Buffer.from(text, 'hex'));
        } else if (mark === '<') {
            last.answer.push(text);
        } else if (mark === '!') {
            const [blanks, fault] = text.split('^ ');
            last.answer.push(fault, `      ${last.typed.at(-1)}`, `      ${blanks}^`);
        }
    }
    return found;
}

/** Types a line and makes its steps in slices, as a run of the program does: what still runs then is interrupted. */
export function play(machine, line, steps, slice) {
    const numbers = [machine.typeBytes(line)];
    for (let left = steps; left > 0n && !machine.isIdle(); left -= slice) numbers.push(machine.advance(left < slice ? left : slice));
    numbers.push(machine.interrupt(), machine.gather());
    if (numbers.some(it => it !== 0)) throw new Error(`a call answers ${numbers.find(it => it !== 0)}`);
    return Buffer.concat([...machine.pieces()]).toString();
}

/** All that a session is answered, in slices of so many steps. */
export function answered(machine, session, slice) {
    machine.open(new Uint8Array());
    return session.typed.map(line => play(machine, line, session.steps, slice)).join('');
}

/** Whether a session is answered as it is written. */
export function isAsWritten(machine, session, slice) {
    return answered(machine, session, slice) === session.answer.map(line => line + '\n').join('');
}

if (isMain(import.meta.url)) {
    const machine = new Machine(moduleOf(process.argv[2])), slice = BigInt(process.argv[3]);
    const areas = fs.readdirSync(FOLDER).filter(name => name.endsWith('.txt')).sort();
    const all = areas.flatMap(sessions), wrong = all.filter(it => !isAsWritten(machine, it, slice));
    for (const it of wrong.slice(0, 10)) console.log(`${it.area}, ${it.name}: another answer in slices of ${slice} steps`);
    // A comparison that can't fail would show nothing: an answer that is altered must be told.
    const altered = { ...all[0], answer: [...all[0].answer, 'altered'] };
    if (isAsWritten(machine, altered, slice)) wrong.push(altered);
    console.log(`sessions: ${all.length - wrong.length} of ${all.length} as written, in slices of ${slice}`);
    process.exit(wrong.length || !all.length ? 1 : 0);
}
