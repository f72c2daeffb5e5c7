/** The worker: types the lines that the page sends, makes their steps in slices, and tells what they write.
 *
 * After a trap, or where memory can't be had for a call, it tells that it is dead and answers nothing more: the page begins another one. */
import { FINE, Machine } from './machine.mjs';
import { functionName } from './text.mjs';

const MOST_STEPS = 2000;        // of a slice: few enough that an interrupt is seen soon though each step be long
const SLICE = 8;                // milliseconds that a slice of long steps should take
const AT_ONCE = 40;             // milliseconds between two looks at what the page wants
const PREFIX = 100000, SUFFIX = 30000;     // characters of what a line writes that are shown where it writes more
const QUICK = 20, SMALL = 1 << 20;      // milliseconds, or bytes, of a file that is made after each line; others are made in pauses

/** What is written between two looks of the page, of which the middle is left out where it is too long. */
export class Written {
    #prefix = '';
    #suffix = '';
    #cut = 0;

    add(text) {
        const room = PREFIX - this.#prefix.length;
        this.#prefix += text.slice(0, Math.max(0, room));
        this.#suffix += text.slice(Math.max(0, room));
        if (this.#suffix.length > 2 * SUFFIX) {
            this.#cut += this.#suffix.length - SUFFIX;
            this.#suffix = this.#suffix.slice(-SUFFIX);
        }
    }

    /** What to show: the prefix, how many characters are left out behind it, and the rest. */
    take() {
        const found = this.#cut ? { prefix: this.#prefix, cut: this.#cut, suffix: this.#suffix } : { prefix: this.#prefix + this.#suffix, cut: 0, suffix: '' };
        this.#prefix = this.#suffix = '';
        this.#cut = 0;
        return found;
    }
}

/** The lines of the calls that stand in a workspace's file, the newest first; null where that is too large to be read after each line. */
export function standingCalls(bytes) {
    if (bytes.length > SMALL) return null;
    const { contexts } = JSON.parse(new TextDecoder().decode(bytes));
    return contexts.filter(it => it.kind === 'call').reverse().map(it => it.lines[it.at - 1] ?? '');
}

/** The stops and the traces of a function in a workspace's file. */
export function marksOf(bytes, name) {
    const { functions } = JSON.parse(new TextDecoder().decode(bytes)), found = functions.find(it => functionName(it.header) === name);
    return { stop: found?.stop ?? [], trace: found?.trace ?? [] };
}

/** Whether a definition with these lines is refused. */
function isRefused(machine, header, body) {
    machine.open(new Uint8Array());
    for (const line of [header, ...body, '∇']) machine.type(line);
    machine.gather();
    return new TextDecoder().decode([...machine.pieces()][0]) !== '';
}

/** By which of its lines a definition is refused at its close, and what the machine says of that line where it is typed. */
export function refusal(machine, header, body) {
    let well = 0, refused = body.length;
    while (refused - well > 1) {
        const half = (well + refused) >> 1;
        if (isRefused(machine, header, body.slice(0, half))) refused = half;
        else well = half;
    }
    machine.open(new Uint8Array());
    machine.type(body[refused - 1].replace(/^[^'⍝:]*:/, ''));
    machine.gather();
    return { at: refused, report: new TextDecoder().decode([...machine.pieces()][0]) };
}

export function work(port) {
    let module, most, machine, interrupted = false, running = false, unseen = 0, decoder, looked = 0, saveTook = 0, saveSize = 0, saveTimer = 0;
    const lines = [], written = new Written();
    const tell = (what, more) => port.postMessage({ what, ...more });
    /** Lets messages in. A timer would wait longer. */
    const pause = () => new Promise(done => {
        const { port1, port2 } = new MessageChannel();
        port1.onmessage = () => {
            port1.close();
            looked = performance.now();
            done();
        };
        port2.postMessage(0);
    });

    function die(error) {
        port.onmessage = null;
        clearTimeout(saveTimer);
        tell('died', { why: String(error?.message || error) });
    }

    /** Takes what was written since into what is to be shown. */
    function collect() {
        const number = machine.gather();
        for (const piece of machine.pieces()) written.add(decoder.decode(piece, { stream: true }));
        return number;
    }

    /** Makes the steps of the line that was typed, until it ends or is interrupted. */
    async function finish() {
        let steps = 64, before = performance.now();
        while (!machine.isIdle()) {
            const number = machine.advance(steps);
            if (number !== FINE) return number;
            const now = performance.now(), took = now - before;
            steps = took > SLICE ? Math.max(1, Math.floor(steps * SLICE / took)) : Math.min(MOST_STEPS, 2 * steps);
            before = now;
            if (now - looked < AT_ONCE || machine.isIdle()) continue;
            const gathered = collect();
            if (gathered !== FINE) return gathered;
            if (unseen === 0) {
                unseen++;
                tell('running', written.take());
            }
            await pause();
            if (interrupted) return machine.interrupt();
            before = performance.now();
        }
        return FINE;
    }

    async function typeOne(line) {
        tell('typed', { line, number: machine.nextLine() });
        decoder = new TextDecoder();
        let number = machine.type(line);
        if (number === FINE) number = await finish();
        if (!machine.isIdle() && machine.interrupt() !== FINE) throw new Error('memory has run out');
        const fault = machine.fault(), gathered = collect(), wrote = written.take();
        tell('ended', { ...wrote, fault: gathered === FINE ? fault : 0, number: number || gathered, next: machine.nextLine() });
        return { number: number || gathered, isRefused: wrote.prefix !== '' };
    }

    /** Types the lines that wait, of which an interrupt leaves those that were to follow. */
    async function typeAll() {
        begin();
        while (lines.length && !interrupted) {
            await typeOne(lines.shift());
            if (performance.now() - looked >= AT_ONCE) await pause();
        }
        if (lines.length) tell('left', { lines: lines.splice(0) });
        end();
    }

    /** Types the lines of a definition, which write nothing but where one is refused: the others would be statements then, and are not typed. */
    async function define(typed) {
        begin();
        let done = 0, number = FINE, isRefused = false, refused = null;
        while (done < typed.length && number === FINE && !isRefused) ({ number, isRefused } = await typeOne(typed[done++]));
        const [header, ...body] = typed.slice(0, -1);
        if (number !== FINE) refused = { number };
        else if (isRefused) refused = done === 1 ? { at: 0, report: '' } : refusal(new Machine(module, most), header, body);
        tell('defined', { left: typed.length - done, refused });
        if (lines.length) await typeAll();
        else end();
    }

    function begin() {
        running = true;
        interrupted = false;
        looked = performance.now();
    }

    function end() {
        running = false;
        look();
        if (saveTook <= QUICK || saveSize <= SMALL) save();
        else saveTimer ||= setTimeout(save, Math.min(5000, 20 * saveTook));
    }

    /** Tells the names and the state indicator, or null where memory runs out. */
    function look() {
        tell('state', { names: machine.names().text, levels: machine.levels().text });
    }

    function save() {
        clearTimeout(saveTimer);
        saveTimer = 0;
        if (running) return;
        try {
            const begun = performance.now(), { number, bytes } = machine.save();
            saveTook = performance.now() - begun;
            saveSize = bytes?.length ?? 0;
            tell('saved', { number, bytes, calls: bytes && standingCalls(bytes) });
        } catch (error) {
            die(error);
        }
    }

    /** Opens a workspace, and types the lines of the definition that was open. */
    function open(bytes, pending) {
        const number = machine.open(bytes);
        decoder = new TextDecoder();
        if (number === FINE) for (const line of pending) machine.type(line);
        collect();
        written.take();
        if (number !== FINE) machine.open(new Uint8Array());
        tell('opened', { number, next: machine.nextLine() });
        look();
        if (number === FINE) save();
    }

    const answers = {
        begin({ bytes, pending, ...given }) {
            ({ module, most } = given);
            machine = new Machine(module, most);
            open(bytes, pending);
        },
        lines({ lines: more }) {
            lines.push(...more);
            if (!running) typeAll().catch(die);
        },
        define({ lines: typed }) {
            define(typed).catch(die);
        },
        interrupt() {
            interrupted = true;
        },
        seen() {
            unseen = 0;
        },
        save() {
            if (!running && machine) save();
        },
        listing({ name, question }) {
            const { number, text } = machine.listing(name), { bytes } = machine.save();
            tell('listing', { question, found: number === FINE && bytes ? { text, ...marksOf(bytes, name) } : null });
        },
    };
    port.onmessage = ({ data }) => {
        try {
            answers[data.what](data);
        } catch (error) {
            die(error);
        }
    };
}
