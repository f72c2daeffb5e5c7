/** A session as the page has it: the worker in which the machine runs, and what is kept of it. */
import { Overtaken } from './store.mjs';
import { meaning } from './text.mjs';

const SOON = 50;            // milliseconds in which what a line changes is gathered to be kept
const PATIENCE = 1000;      // milliseconds after which an interrupt may be made by force

export class Session {
    #worker = null;
    #file;
    #notes;
    #open = [];             // the lines of the definition that is open
    #since = [];            // the lines typed since the file was made
    #sent = [];             // those that the worker has not typed yet
    #unwritten = null;      // the file, where it isn't written yet
    #timer = 0;
    #writing = null;
    #patience = 0;
    #questions = new Map();
    #waiting = [];          // who waits for the file of the state that stands
    #isOpen = false;
    #defining = null;       // who waits for what a definition comes to
    isRunning = false;
    next = 0;

    /** `begin` makes a worker; `module` is the compiled module; `store` keeps the workspace, if it isn't null; `file` and `notes` are what it has of
     * it. What happens is told by the functions of `tell`; `noted` gives what is to be kept beside the file. */
    constructor({ begin, module, store, name, file, notes, tell, noted }) {
        Object.assign(this, { begin, module, store, name, tell, noted });
        this.#file = file ?? new Uint8Array();
        this.#notes = notes ?? { written: 0, open: [], since: [] };
        this.#open = [...this.#notes.open];
        if (this.#notes.since.length) tell.undone('Lines were typed since the workspace was kept, and are not done in it.', this.#notes.since);
        this.#start();
    }

    #start() {
        this.#worker = this.begin();
        this.#worker.onmessage = ({ data }) => this[`_${data.what}`](data);
        this.#worker.onerror = event => {
            event.preventDefault();
            this.#die(event.message || 'the worker ended');
        };
        this.#worker.postMessage({ what: 'begin', module: this.module, bytes: this.#file, pending: this.#open });
    }

    /** Abandons the worker and begins another one from the file that was made last, if one could be opened before. */
    #die(why) {
        this.#worker.terminate();
        clearTimeout(this.#patience);
        if (!this.#isOpen) {
            this.store = null;
            this.tell.unkept(`the machine can't begin with this workspace, which stays as it is (${why})`);
            return;
        }
        this.#isOpen = false;
        this.tell.note(`The machine was begun again from the workspace that was kept last: ${why}.`);
        const undone = this.#undone();
        if (undone.length) this.tell.undone('Lines that were typed since are not done.', undone);
        this.#since = [];
        this.#sent = [];
        this.#open = [...this.#notes.open];
        this.#questions.forEach(done => done(null));
        this.#questions.clear();
        this.#waiting.splice(0).forEach(done => done());
        this.#defining?.({ why: `the machine was begun again: ${why}` });
        this.#defining = null;
        this.#setRunning(false);
        this.#start();
    }

    /** The lines whose work isn't in the file. */
    #undone() {
        return [...this.#since, ...this.#sent];
    }

    #setRunning(isRunning) {
        this.isRunning = isRunning;
        this.tell.running(isRunning, false);
    }

    type(lines) {
        this.#setRunning(true);
        this.#sent.push(...lines);
        this.#worker.postMessage({ what: 'lines', lines });
    }

    /** Types the lines of a definition, and gives why it is refused, or null: the line `at` which it is (0 is the header) and a `report` of that line; the
     * machine's `number` where a line wasn't done; or `why` the machine was begun again. */
    define(lines) {
        return new Promise(done => {
            this.#defining = done;
            this.#setRunning(true);
            this.#sent.push(...lines);
            this.#worker.postMessage({ what: 'define', lines });
        });
    }

    /** Interrupts the line that runs. Where it is in the midst of a long step, this may be asked for again, and is then done by force. */
    interrupt() {
        if (!this.isRunning) return;
        if (this.#patience === -1) {
            this.#patience = 0;
            this.#die('it was stopped in the midst of a step');
            return;
        }
        this.#worker.postMessage({ what: 'interrupt' });
        this.#patience ||= setTimeout(() => {
            this.#patience = -1;
            this.tell.running(true, true);
        }, PATIENCE);
    }

    /** The header and the lines of a function with its stops and traces, or null; null too while a line runs. */
    listing(name) {
        return new Promise(done => {
            const question = Math.random();
            this.#questions.set(question, done);
            this.#worker.postMessage({ what: 'listing', name, question });
        });
    }

    /** The file of the state that stands, or of the one before the line that runs. */
    async file() {
        if (!this.isRunning) {
            await new Promise(done => {
                this.#waiting.push(done);
                this.#worker.postMessage({ what: 'save' });
            });
        }
        return this.#file;
    }

    /** Ends the session, of which nothing more is kept. */
    end() {
        this.store = null;
        this.#worker.terminate();
    }

    /** Keeps all that stands now. */
    async flush() {
        await this.file();
        await this.#keep();
    }

    keepSoon() {
        this.#timer ||= setTimeout(() => this.#keep(), SOON);
    }

    /** Writes what isn't written, one writing after the other. */
    #keep() {
        clearTimeout(this.#timer);
        this.#timer = 0;
        this.#writing = (this.#writing ?? Promise.resolve()).then(() => this.#write());
        return this.#writing;
    }

    async #write() {
        if (!this.store) return;
        const file = this.#unwritten;
        this.#notes = { ...this.#notes, ...this.noted(), since: this.#undone(), written: this.#notes.written + 1 };
        this.#unwritten = null;
        try {
            await this.store.put(this.name, this.#notes, file);
            this.tell.kept(this.#file.length);
        } catch (error) {
            if (error instanceof Overtaken) this.store = null;
            else this.#notes.written--;
            this.#unwritten ??= file;
            this.tell.unkept(error instanceof Overtaken ? 'another page has written this workspace' : String(error?.message || error));
        }
    }

    _opened({ number, next }) {
        this.#isOpen = true;
        this.next = next;
        if (number) {
            // What is kept stays as it is.
            this.store = null;
            this.tell.unkept(`this workspace is refused, since ${meaning(number)}`);
        }
        this.tell.opened(next);
    }

    _typed({ line, number }) {
        this.#open = number ? [...this.#open, line] : [line];
        this.#since.push(line);
        this.#sent.shift();
        this.isRunning = true;
        this.tell.typed(line, number);
        this.keepSoon();
    }

    _running(wrote) {
        this.tell.wrote(wrote);
        setTimeout(() => this.#worker.postMessage({ what: 'seen' }));
    }

    _ended({ number, next, ...wrote }) {
        clearTimeout(this.#patience);
        this.#patience = 0;
        this.next = next;
        if (!next) this.#open = [];
        this.tell.wrote(wrote);
        if (number) this.tell.note(`This line is not done: ${meaning(number)}.`);
        this.tell.ended(next);
    }

    _left({ lines }) {
        this.#sent.splice(0, lines.length);
        this.tell.undone('Lines that were to follow are not typed.', lines);
    }

    _defined({ left, refused }) {
        this.#sent.splice(0, left);
        this.#defining?.(refused);
        this.#defining = null;
    }

    _state({ names, levels }) {
        this.#setRunning(false);
        this.tell.state(names, levels);
    }

    _saved({ number, bytes, calls }) {
        if (number === 0) {
            this.#file = this.#unwritten = bytes;
            this.#notes.open = [...this.#open];
            this.#since = [];
            this.tell.calls(calls);
            this.#keep();
        } else {
            this.tell.unkept(meaning(number));
        }
        this.#waiting.splice(0).forEach(done => done());
    }

    _listing({ question, found }) {
        this.#questions.get(question)?.(found);
        this.#questions.delete(question);
    }

    _died({ why }) {
        this.#die(why);
    }
}
