/** The page: what stands in it, and what its buttons and keys do. */
import { Entry, typeByKeys } from './entry.mjs';
import { Guide } from './guide.mjs';
import { Help } from './help.mjs';
import { Listing } from './listing.mjs';
import { Machine } from './machine.mjs';
import { menu } from './menu.mjs';
import { FunctionWindow, make, showFunctions, showLevels, showVariables } from './panels.mjs';
import { Session } from './session.mjs';
import { Store, lock } from './store.mjs';
import { levels, meaning, names, parts, refusedText, spoken, stepLines, symbolAt } from './text.mjs';
import { Transcript } from './transcript.mjs';
import { showBar } from './bar.mjs';

const it = id => document.getElementById(id);
const encoder = new TextEncoder();
const FIRST = 'workspace';
const WELCOME = 'Type a line below, as 2+3×4, and Enter. Backquote and a key type a character: `- is ×. Learn, above, has a tutorial.';

/** The name in an address, or what stands there where it is none. */
function named(text) {
    try {
        return decodeURIComponent(text);
    } catch {
        return text;
    }
}

class Page {
    #words = [];
    #levels = [];
    #named = null;
    #standing = null;
    #lasting = null;
    #heard = [];            // parts of what was written since the last line that was typed, to be read aloud
    #pointed = '';          // the character of the bar that is pointed at
    session = null;

    constructor(source, content) {
        Object.assign(this, { source, content });
        this.name = named(location.hash.slice(1)) || FIRST;
        // What is pointed at is shown; what is told is read aloud too.
        this.show = (text, character = '') => {
            it('hint').textContent = text;
            this.#pointed = character;
        };
        this.say = text => {
            it('hint').textContent = text;
            this.speak(text);
        };
        const keys = new Map(content.keys);
        this.entry = new Entry({
            line: it('line'), label: it('prompt'), form: it('form'), keys, known: () => this.#words,
            enter: lines => this.type(lines), say: this.say,
        });
        this.transcript = new Transcript(it('transcript'), line => this.entry.set(line));
        this.window = new FunctionWindow(it('function'), lines => this.#define(lines));
        const closed = () => this.entry.focus();
        this.listing = new Listing(it('listing'), {
            type: line => this.typeAlone([line], true), edit: name => this.edit(name), say: this.say, closed,
        });
        this.help = new Help(it('help'), {
            reference: content.reference, meanings: content.meanings, put: line => this.entry.set(line), closed, say: this.say,
        });
        this.guide = new Guide({
            place: it('guide'), type: lines => this.type(lines), put: line => this.entry.set(line), anew: (page, step) => this.begin(page, step),
            moved: () => this.session?.keepSoon(),
        });
        typeByKeys(this.window.text, keys);
        showBar(it('function').querySelector('.bar'), content, { put: text => this.window.put(text), say: this.show });
        showBar(it('bar'), content, { put: text => this.entry.put(text), say: this.show, explain: character => this.help.open(character) });
        this.#menus();
        this.#buttons();
        it('name').textContent = this.name;
        document.title = this.name === FIRST ? 'APL' : `${this.name} · APL`;
    }

    /** Opens the workspace that the address names, where no other page has it. `module` is a promise of the compiled module. */
    async open(module) {
        this.module = module;
        try {
            this.store = await Store.open();
        } catch (error) {
            this.store = null;
            this.banner(`This browser keeps nothing here (${error?.message || error}). Download the workspace before you close the page.`);
        }
        if (this.store && !await lock(this.name, () => this.#begin())) {
            it('state').textContent = 'Open elsewhere';
            it('line').disabled = true;
            this.banner('This workspace is open in another tab. It opens here when that is closed.', ['Work on a copy', () => this.#copy()]);
        } else {
            await this.#begin();
        }
    }

    async #begin() {
        const module = await this.module;
        const { file, notes } = await this.store?.get(this.name) ?? {};
        if (this.store) this.banner('');
        it('line').disabled = false;
        this.transcript.clear();
        this.transcript.restore(notes?.transcript ?? []);
        if (!notes) this.transcript.note(WELCOME);
        this.entry.history = notes?.history ?? [];
        const wanted = notes?.guide ?? { page: sessionStorage.getItem('guide'), step: 0 };
        sessionStorage.removeItem('guide');
        this.#guided(wanted);
        this.session = new Session({
            begin: () => new Worker(this.source), module, store: this.store, name: this.name, file, notes, tell: this.#told(),
            noted: () => ({ transcript: this.transcript.last(), history: this.entry.history, guide: this.guide.at }),
        });
    }

    /** Shows lines that are not done, which may be typed again. */
    #undone(why, lines) {
        this.transcript.undone(why, lines);
        this.banner(why, ['Type them again', () => { this.banner(''); this.type(lines); }], ['Close', () => this.banner('')]);
    }

    /** Opens a guide where it was left, if there is one. */
    #guided(at) {
        const page = this.content.pages.find(page => page.name === at?.page);
        if (page) this.guide.open(page, at.step);
    }

    /** What the session tells, and what that does to the page. */
    #told() {
        return {
            opened: next => { this.entry.number(next); this.entry.focus(); },
            typed: (line, number) => this.transcript.typed(line, number),
            wrote: wrote => {
                this.transcript.wrote(wrote);
                this.#heard.push(...parts(wrote.prefix + wrote.suffix, wrote.fault));
            },
            note: text => this.transcript.note(text),
            undone: (why, lines) => this.#undone(why, lines),
            ended: next => { this.entry.number(next); },
            running: (isRunning, byForce) => this.#running(isRunning, byForce),
            state: (named, standing) => this.#state(named ?? '', standing ?? ''),
            calls: calls => {
                showLevels(it('levels'), this.#levels, calls, name => this.list(name));
                if (this.listing.name) this.list(this.listing.name, true);
            },
            kept: size => { it('kept').textContent = `Kept in this browser, ${size.toLocaleString('en')} bytes`; },
            unkept: why => this.banner(`What is typed now isn't kept: ${why}. Download the workspace before you close the page.`),
        };
    }

    /** Has text read aloud, though it be what was read before. */
    speak(text) {
        const told = it('told');
        told.textContent = text && text === told.textContent ? `${text}\u00a0` : text;
    }

    /** Types lines. The cursor goes to the line, unless it stays where it is. */
    type(lines, stays = false) {
        if (!this.session) {
            this.entry.set(lines.join(''));
            return;
        }
        // So that the browser doesn't clear away what it keeps when room is short.
        this.#lasting ??= navigator.storage?.persist?.().catch(() => false) ?? true;
        for (const line of lines) this.entry.remember(line);
        this.session.type(lines);
        if (!stays) this.entry.focus();
    }

    /** Types lines that are statements, where no definition is open that would take them, and tells whether they are typed. */
    typeAlone(lines, stays = false) {
        if (this.session?.next) this.say('A definition is open: close it by ∇ first.');
        else this.type(lines, stays);
        return !this.session?.next;
    }

    /** Types the lines of a definition, and gives why it is refused and at which line, or null. */
    async #define(lines) {
        if (!this.session || this.session.isRunning) return { text: 'A line runs: define it when that has ended.' };
        if (this.session.next) return { text: 'A definition is open: close it by ∇ first.' };
        for (const line of lines) this.entry.remember(line);
        const refused = await this.session.define(lines);
        return refused && { text: refusedText(refused), at: refused.at };
    }

    /** Types what makes the suspended call go on to its next line. */
    async #step() {
        const [{ name }] = this.#levels, found = await this.session.listing(name);
        const lines = found && stepLines(name, found.text.split('\n').length - 2, found.stop);
        if (lines) this.typeAlone(lines);
        else this.say(found ? 'So many stops are too long for one typed line.' : `There is no function ${name} now.`);
    }

    #running(isRunning, byForce) {
        it('state').textContent = isRunning ? 'Running' : 'Ready';
        it('interrupt').disabled = !isRunning;
        it('interrupt').textContent = byForce ? 'Stop by force' : 'Interrupt';
        if (byForce) this.say('The line is in the midst of a long step. To stop it by force goes back to the workspace that was kept last.');
        for (const name of ['resume', 'step', 'give-up']) it(name).disabled = isRunning || !this.#levels.length || this.session?.next > 0;
    }

    #state(named, standing) {
        const next = this.session?.next, heard = spoken(this.#heard, this.content.meanings);
        this.#heard = [];
        if (heard || next) this.speak([heard, next && `Line ${next} of the definition`].filter(Boolean).join('\n'));
        this.#running(false, false);
        if (named === this.#named && standing === this.#standing) return;
        [this.#named, this.#standing] = [named, standing];
        const { functions, variables } = names(named);
        this.#levels = levels(standing);
        this.#words = [...functions, ...variables].map(it => it.name);
        showLevels(it('levels'), this.#levels, null, name => this.list(name));
        showVariables(it('variables'), variables, name => this.typeAlone([name]));
        showFunctions(it('functions'), functions, name => this.list(name));
        this.#running(false, false);
    }

    /** Shows a function's lines at the side; again where it is the one that is shown, whose lines may have changed. */
    async list(name, isAgain = false) {
        const found = await this.session.listing(name);
        if (isAgain && this.listing.name !== name) return;
        if (found) this.listing.show(name, found, this.#levels.filter(it => it.name === name).map(it => it.number));
        else if (!this.session.isRunning) this.listing.close();
        if (isAgain) return;
        if (found) this.listing.focus();
        else this.#untold(name);
    }

    #untold(name) {
        this.say(this.session.isRunning ? 'A line runs: its functions are shown when it has ended.' : `There is no function ${name} now.`);
    }

    /** Shows a function's lines to be changed. */
    async edit(name) {
        const found = await this.session.listing(name);
        if (found) this.window.open(found.text);
        else this.#untold(name);
    }

    /** Tells what must not be missed; with no text it is taken away. */
    banner(text, ...buttons) {
        it('banner').hidden = !text;
        it('banner').replaceChildren(text, ...buttons.map(([label, onclick]) => make('button', { type: 'button', onclick }, label)));
    }

    #buttons() {
        it('interrupt').onclick = () => this.session?.interrupt();
        it('resume').onclick = () => this.type(['→⎕LC']);
        it('step').onclick = () => this.#step();
        it('give-up').onclick = () => this.type(['→']);
        it('ask').onclick = () => this.#explain();
        it('line').addEventListener('input', () => { this.#pointed = ''; });
        it('ask').onpointerdown = event => event.preventDefault();
        it('new-function').onclick = () => this.window.open('');
        it('file').onchange = ({ target }) => {
            if (target.files[0]) this.openFile(target.files[0]);
            target.value = '';
        };
        document.addEventListener('keydown', event => {
            if (event.ctrlKey && event.key === 'c' && !String(getSelection()) && it('line').selectionStart === it('line').selectionEnd) this.session?.interrupt();
            if (it('function').open) return;
            if (event.key === 'F1' || event.key === '?' && !event.target.matches('input, select, textarea')) {
                event.preventDefault();
                this.#explain();
            } else if (event.key === 'Escape' && this.help.isOpen && !event.defaultPrevented) {
                this.help.close();
            }
        });
        document.addEventListener('visibilitychange', () => document.hidden && this.session?.flush());
        addEventListener('hashchange', () => location.reload());
    }

    /** Opens the entry of the character of the bar that is pointed at, or else of the symbol at the cursor. */
    #explain() {
        this.help.open(this.#pointed || symbolAt(it('line').value, it('line').selectionStart));
    }

    #menus() {
        menu(it('workspaces'), async () => {
            const stored = await this.store?.names() ?? [];
            return [...stored.map(name => [name, () => this.go(name), name === this.name]), null,
                ['New workspace …', () => this.#create()], ['Open a file …', () => it('file').click()], ['Download', () => this.download()],
                ['Delete this workspace …', () => this.#delete()]];
        });
        menu(it('guides'), () => [...this.content.pages.map(page => [page.title, () => this.learn(page)]), null, ['Reference (F1)', () => this.help.open('')]]);
    }

    /** Opens a guide's workspace, which is made where it isn't kept yet, and the guide beside it. */
    async learn(page) {
        const { notes } = await this.store?.get(page.name) ?? {};
        if (notes && page.name !== this.name) {
            sessionStorage.setItem('guide', page.name);
            await this.go(page.name);
        } else if (notes) {
            this.guide.open(page);
            this.session.keepSoon();
        } else {
            await this.begin(page, 0);
        }
    }

    /** Makes a workspace of a guide, as it was, with the guide at a step beside it. */
    begin(page, step) {
        return this.make(page.name, page.workspace ? encoder.encode(page.workspace) : new Uint8Array(), { page: page.name, step });
    }

    /** Makes a workspace of this name, or of one that is free, and goes there. */
    async make(name, file, guide = null) {
        if (!this.store) {
            this.session?.end();
            return this.#restart(file, guide);
        }
        const taken = await this.store.names();
        let free = name;
        for (let n = 2; taken.includes(free); n++) free = `${name}-${n}`;
        await this.store.put(free, { written: 1, open: [], since: [], transcript: [], history: this.entry.history, guide }, file);
        await this.session?.flush();
        return this.#to(free);
    }

    /** Where nothing is kept: begins with this file in the page that stands. */
    async #restart(file, guide) {
        const module = await this.module;
        this.transcript.clear();
        this.#guided(guide);
        this.session = new Session({
            begin: () => new Worker(this.source), module, store: null, name: this.name, file, tell: this.#told(), noted: () => ({}),
        });
    }

    #to(name) {
        location.hash = encodeURIComponent(name);
    }

    async go(name) {
        if (name === this.name) return;
        await this.session?.flush();
        this.#to(name);
    }

    #create() {
        const name = prompt('The name of the new workspace')?.trim();
        if (name) this.make(name, new Uint8Array());
    }

    async #copy() {
        const { file } = await this.store.get(this.name);
        await this.make(this.name, file ?? new Uint8Array());
    }

    async #delete() {
        if (!this.store || !confirm(`Delete the workspace ${this.name}? What it holds can't be had again.`)) return;
        this.session?.end();
        await this.store.remove(this.name);
        if (this.name === FIRST) location.reload();
        else this.#to(FIRST);
    }

    async download() {
        const file = await this.session?.file();
        const link = make('a', { href: URL.createObjectURL(new Blob([file], { type: 'application/json' })), download: `${this.name}.json` });
        link.click();
        setTimeout(() => URL.revokeObjectURL(link.href), 1000);
    }

    /** Opens a file as a workspace of its own, if it is one. */
    async openFile(file) {
        const bytes = new Uint8Array(await file.arrayBuffer());
        let number;
        try {
            number = new Machine(await this.module).open(bytes);
        } catch {
            number = 8;
        }
        if (number) this.banner(`${file.name} is refused, since ${meaning(number)}. The session here is as it was.`, ['Close', () => this.banner('')]);
        else await this.make(file.name.replace(/\.json$/i, '') || FIRST, bytes);
    }
}

/** Begins the page, whose module comes from `load`, and which shows what comes from `content`; `source` is this script's address, which the worker is
 * begun with. */
export async function show(source, load, content) {
    try {
        const module = load();
        await new Page(source, await content()).open(module);
    } catch (error) {
        it('state').textContent = `The machine can't begin: ${error?.message || error}`;
    }
}
