/** The lines of a function at the side, with its stops and traces, which a press sets and takes away: the line that does so is typed. */
import { make } from './panels.mjs';
import { vectorLine } from './text.mjs';

const WORDS = ['STOP', 'TRACE'];

export class Listing {
    #place;
    #text = null;
    #marks = null;          // the lines by STOP and TRACE, with what was pressed since
    name = null;

    /** `type` is called with a line to be typed, `edit` with the name whose lines are to be changed, and `say` with what is to be told. */
    constructor(place, { type, edit, say, closed }) {
        Object.assign(this, { type, edit, say, closed });
        this.#place = place;
        place.addEventListener('keydown', event => this.#key(event));
        // One stop of the Tab key: where the focus was last.
        place.addEventListener('focusin', ({ target }) => {
            if (target.dataset.at) for (const it of this.#buttons()) it.tabIndex = it === target ? 0 : -1;
        });
    }

    /** Shows a function as the machine has it: its header and lines, its stops and traces, and the lines at which calls of it stand. */
    show(name, { text, stop, trace }, standing) {
        if (name !== this.name || text !== this.#text) this.#build(name, text);
        this.#marks = { STOP: stop, TRACE: trace };
        for (const it of this.#buttons()) {
            const [word, line] = it.dataset.at.split(' ');
            it.setAttribute('aria-pressed', String(this.#marks[word].includes(Number(line))));
        }
        for (const [i, row] of [...this.#place.querySelectorAll('li')].entries()) row.setAttribute('aria-current', String(standing.includes(i + 1)));
        this.#place.querySelector('[aria-current=true]')?.scrollIntoView({ block: 'nearest' });
    }

    focus() {
        (this.#buttons().find(it => it.tabIndex === 0) ?? this.#place.querySelector('button')).focus();
    }

    close() {
        const had = this.#place.contains(document.activeElement);
        this.name = this.#text = null;
        this.#place.hidden = true;
        this.#place.replaceChildren();
        if (had) this.closed();
    }

    #buttons() {
        return [...this.#place.querySelectorAll('[data-at]')];
    }

    #build(name, text) {
        [this.name, this.#text] = [name, text];
        const [header, ...lines] = text.replace(/\n$/, '').split('\n');
        const press = (label, onclick) => make('button', { type: 'button', onclick }, label);
        const mark = (word, line, shown, label) => {
            const it = make('button', { type: 'button', className: word.toLowerCase(), tabIndex: -1, 'aria-label': label, title: label, onclick: () => this.#press(word, line) }, shown);
            it.dataset.at = `${word} ${line}`;
            return it;
        };
        const rows = lines.map((line, i) => make('li', null, mark('STOP', i + 1, `[${i + 1}]`, `Stop before line ${i + 1}`),
            mark('TRACE', i + 1, 'T', `Trace line ${i + 1}`), make('code', null, line)));
        this.#place.hidden = false;
        this.#place.setAttribute('aria-label', `Lines of ${name}`);
        this.#place.replaceChildren(
            make('header', null, make('h2', null, name), press('Edit', () => this.edit(name)), press('Close', () => this.close())),
            make('p', { className: 'dim' }, 'A number sets a stop before its line, a T traces it.'), make('code', { className: 'dim' }, `∇ ${header}`),
            make('ol', null, ...rows));
        const [first] = this.#buttons();
        if (first) first.tabIndex = 0;
    }

    #press(word, line) {
        const had = this.#marks[word], lines = had.includes(line) ? had.filter(it => it !== line) : [...had, line].sort((a, b) => a - b);
        const typed = vectorLine(word, this.name, lines);
        if (!typed) this.say('So many lines are too long for one typed line.');
        else if (this.type(typed)) this.#marks[word] = lines;
    }

    /** The arrows move among the marks. */
    #key(event) {
        if (event.key === 'Escape') {
            this.close();
            event.stopPropagation();
        }
        const all = this.#buttons(), at = all.indexOf(document.activeElement);
        const by = { ArrowRight: 1, ArrowLeft: -1, ArrowDown: WORDS.length, ArrowUp: -WORDS.length }[event.key];
        if (at < 0 || !by || !all[at + by]) return;
        event.preventDefault();
        all[at + by].focus();
    }
}
