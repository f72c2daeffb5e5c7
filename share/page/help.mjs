/** What the reference says of a character, a system name or a command, beside the session. */
import { blockOf, worded } from './guide.mjs';
import { make } from './panels.mjs';

export class Help {
    #place;

    /** `reference` has the entries, and which of them are of a symbol; `put` is called with a line to be laid into the line, `closed` when this is
     * closed from within. */
    constructor(place, { reference, meanings, put, closed, say }) {
        Object.assign(this, { reference, meanings, put, closed, say });
        this.#place = place;
        place.addEventListener('keydown', event => {
            if (event.key !== 'Escape' && event.key !== 'F1') return;
            event.preventDefault();
            event.stopPropagation();
            this.close();
        });
    }

    /** Opens the entries of a symbol, or all to choose from where there is none. */
    open(symbol) {
        const found = this.reference.of[symbol];
        if (symbol && !found) this.say(`The reference has no entry of ${symbol}.`);
        else this.#show(symbol ? `${symbol}  ${this.meanings[symbol] ?? ''}` : 'Reference', found ?? [0]);
    }

    get isOpen() {
        return !this.#place.hidden;
    }

    close() {
        this.#place.hidden = true;
        this.#place.replaceChildren();
        this.closed();
    }

    #choice(now) {
        const { entries } = this.reference, sections = [...new Set(entries.map(it => it.section))];
        const option = (it, i) => it.section && make('option', { value: i }, it.title.replace(/`/g, ''));
        const groups = sections.map(section => make('optgroup', { label: section }, ...entries.map((it, i) => it.section === section ? option(it, i) : '')));
        const choice = make('select', { 'aria-label': 'Entry' }, ...groups);
        choice.value = now;
        choice.onchange = () => this.#show(entries[choice.value].title.replace(/`/g, ''), [Number(choice.value)]);
        return choice;
    }

    #show(title, which) {
        const entries = which.map(i => this.reference.entries[i]);
        const shown = entries.flatMap(it => [make('h3', null, ...worded(it.title)), ...it.blocks.map(block => blockOf(block, this.put))]);
        this.#place.hidden = false;
        this.#place.replaceChildren(
            make('header', null, this.#choice(which[0]), make('button', { type: 'button', onclick: () => this.close() }, 'Close')),
            make('h2', { tabIndex: -1 }, title.trim()), ...shown);
        this.#place.scrollTop = 0;
        this.#place.querySelector('h2').focus();
    }
}
