/** What stands at the side: the state indicator, the variables, the functions, and a function's lines to be read and changed. */
import { definition, described } from './text.mjs';

/** An element with these properties and these children. */
export function make(tag, properties, ...children) {
    const it = document.createElement(tag);
    for (const [name, value] of Object.entries(properties ?? {})) {
        if (name.includes('-') || name === 'role') it.setAttribute(name, value);
        else it[name] = value;
    }
    it.append(...children);
    return it;
}

function button(text, label, press, ...more) {
    return make('button', { type: 'button', 'aria-label': label, onclick: press, className: 'row' }, make('b', null, text), ...more);
}

/** Puts rows into a list, or a word where there are none. */
function fill(list, rows) {
    list.replaceChildren(...(rows.length ? rows.map(it => make('li', null, it)) : [make('li', { className: 'none' }, 'none')]));
}

export function showLevels(list, levels, calls, open) {
    fill(list, levels.map(({ name, number, isSuspended }, i) => {
        const text = calls?.length === levels.length ? calls[i] : '';
        const place = `${name}[${number}]`, state = isSuspended ? 'suspended' : 'waits';
        const row = button(place, `${place}, ${state}: ${text}`, () => open(name), make('span', { className: 'dim' }, isSuspended ? ' suspended' : ' waits'),
            make('code', { className: isSuspended ? 'fault' : '' }, text));
        row.classList.add('level');
        return row;
    }));
}

export function showVariables(list, variables, show) {
    fill(list, variables.map(it => button(it.name, `${it.name}: ${described(it)}. Show its value`, () => show(it.name),
        make('span', { className: 'dim' }, ` ${described(it)}`))));
}

export function showFunctions(list, functions, open) {
    fill(list, functions.map(it => button(it.name, `${it.header}. Show its lines`, () => open(it.name), make('code', { className: 'dim' }, ` ${it.header}`))));
}

/** The window in which a function's lines are changed. It stays open, with what was changed, until the function is defined. */
export class FunctionWindow {
    #window;
    #text;
    #why;
    #begun = '';            // the text that it was opened with

    /** `define` is called with the lines that define the function, and gives why they are refused, or null. */
    constructor(window_, define) {
        this.#window = window_;
        this.#text = window_.querySelector('textarea');
        this.#why = window_.querySelector('[role=alert]');
        const isLeft = () => this.#text.value === this.#begun || confirm('Leave what was changed here?');
        window_.addEventListener('cancel', event => isLeft() || event.preventDefault());
        window_.querySelector('form').addEventListener('submit', event => {
            event.preventDefault();
            if (event.submitter?.value === 'define') this.#define(define);
            else if (isLeft()) window_.close();
        });
    }

    get text() {
        return this.#text;
    }

    /** Puts text where the cursor is. */
    put(text) {
        this.#text.setRangeText(text, this.#text.selectionStart, this.#text.selectionEnd, 'end');
        this.#text.focus();
    }

    /** Shows a function by its header and lines. */
    open(listing) {
        this.#why.textContent = '';
        this.#text.value = this.#begun = listing;
        this.#text.rows = Math.min(24, Math.max(6, listing.split('\n').length + 1));
        this.#window.showModal();
        this.#text.focus();
        this.#text.setSelectionRange(0, 0);
    }

    async #define(define) {
        const { lines, why, at } = definition(this.#text.value), refused = lines ? await define(lines) : { text: why, at };
        if (refused) this.#refuse(refused);
        else this.#window.close();
    }

    /** Says why nothing was defined, and selects the line that is refused. */
    #refuse({ text, at }) {
        this.#why.textContent = text;
        this.#text.focus();
        if (at === undefined) return;
        const lines = this.#text.value.split('\n'), from = lines.slice(0, at).join('\n').length + (at ? 1 : 0);
        this.#text.setSelectionRange(from, from + lines[at].length);
    }
}
