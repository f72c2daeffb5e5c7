/** A page to read beside the session, step by step, whose lines can be typed: the tutorial, or what a sample workspace has. */
import { make } from './panels.mjs';

/** Words with `code` and **strong** among them. */
export function worded(text) {
    return text.split(/(``.+?``|`.+?`|\*\*.+?\*\*)/).map(it => {
        if (it.startsWith('**')) return make('strong', null, ...worded(it.slice(2, -2)));
        if (it.startsWith('``')) return make('code', null, it.slice(2, -2).replace(/^ (.*) $/, '$1'));
        if (it.startsWith('`')) return make('code', null, it.slice(1, -1));
        return it.replace(/\[(.+?)\]\(.+?\)/g, '$1');
    });
}

function table(rows) {
    const cells = rows.filter(row => !/^[|\s-]+$/.test(row)).map(row => row.split('|').slice(1, -1).map(it => it.trim()));
    const [head, ...body] = cells;
    return make('table', null, make('tr', null, ...head.map(it => make('th', { scope: 'col' }, ...worded(it)))),
        ...body.map(row => make('tr', null, ...row.map(it => make('td', null, ...worded(it))))));
}

/** A block of a page: words, a table, a listing, or a session, whose lines `put` is called with where they are pressed. */
export function blockOf({ kind, lines }, put) {
    if (kind === 'text') return make('p', null, ...worded(lines.join(' ')));
    if (kind === 'table') return table(lines);
    if (kind === 'plain') return make('pre', null, lines.join('\n'));
    const shown = lines.map(({ typed, text }) => typed
        ? make('button', { type: 'button', className: 'line', 'aria-label': `Take the line ${text}`, onclick: () => put(text) }, `      ${text}`)
        : make('span', null, text + '\n'));
    return make('pre', null, ...shown);
}

export class Guide {
    #place;
    #page = null;
    #step = 0;

    /** `type` is called with lines to be typed, `put` with one to be laid into the line, `anew` with a page and a step that begins with the page's
     * workspace as it was, and `moved` when another step is shown. */
    constructor({ place, type, put, anew, moved }) {
        this.#place = place;
        this.type = type;
        this.put = put;
        this.anew = anew;
        this.moved = moved;
    }

    /** Where it stands: the page's name and the step, or null. */
    get at() {
        return this.#page && { page: this.#page.name, step: this.#step };
    }

    open(page, step = 0) {
        this.#page = page;
        this.#step = Math.max(0, Math.min(step, page.steps.length - 1));
        this.#show();
    }

    close() {
        this.#page = null;
        this.#place.hidden = true;
        this.#place.replaceChildren();
        this.moved();
    }

    #go(step) {
        this.#step = step;
        this.#show();
        this.moved();
        this.#place.querySelector('h2').focus();
    }

    /** The steps to choose from. */
    #choice(steps) {
        const choice = make('select', { 'aria-label': 'Step' }, ...steps.map((step, i) => make('option', { value: i }, `${i + 1} · ${step.title}`)));
        choice.value = this.#step;
        choice.onchange = () => this.#go(Number(choice.value));
        return choice;
    }

    /** Words and a button before lines that begin with the page's workspace as it was. */
    #beginning() {
        return make('p', null, 'This begins with the workspace as it was. ',
            make('button', { type: 'button', onclick: () => this.anew(this.#page, this.#step) }, 'Open it anew'));
    }

    #show() {
        const { title, steps } = this.#page, step = steps[this.#step], last = steps.length - 1;
        const typed = step.blocks.flatMap(it => it.kind === 'apl' ? it.lines.filter(line => line.typed).map(line => line.text) : []);
        const press = (text, isOff, onclick) => make('button', { type: 'button', disabled: isOff, onclick }, text);
        this.#place.hidden = false;
        this.#place.replaceChildren(
            make('header', null, make('span', null, title), this.#choice(steps), press('Close', false, () => this.close())),
            make('h2', { tabIndex: -1 }, step.title),
            ...step.blocks.flatMap(it => it.anew ? [this.#beginning(), blockOf(it, this.put)] : [blockOf(it, this.put)]),
            make('footer', null, press('Back', this.#step === 0, () => this.#go(this.#step - 1)), press('Type these lines', !typed.length, () => this.type(typed)),
                press('Next', this.#step === last, () => this.#go(this.#step + 1))));
        this.#place.scrollTop = 0;
    }
}
