/** The transcript: what was typed, what it wrote, and what the page says. */
import { parts, prompt } from './text.mjs';

const SHOWN = 400000, PARTS = 2000;      // characters that are kept in the page, and parts
const KEPT = 50000;         // characters that are kept with the workspace

export class Transcript {
    #place;
    #entries = [];
    #size = 0;
    #follows = true;
    #frame = 0;

    /** `again` is called with the text of a typed line that is clicked. */
    constructor(place, again) {
        this.#place = place;
        // Who reads further up is left there; else the last line stays in sight.
        place.addEventListener('scroll', () => { this.#follows = place.scrollHeight - place.scrollTop - place.clientHeight < 40; });
        new ResizeObserver(() => this.#follows && this.end()).observe(place);
        place.addEventListener('click', ({ target }) => {
            if (target.dataset.line !== undefined && !String(getSelection())) again(target.dataset.line);
        });
    }

    #add(kind, text, line) {
        if (!text) return;
        const part = document.createElement('span');
        part.className = kind;
        part.textContent = text;
        if (line !== undefined) part.dataset.line = line;
        this.#place.append(part);
        this.#entries.push([kind, text, line]);
        for (this.#size += text.length; (this.#size > SHOWN || this.#entries.length > PARTS) && this.#entries.length > 1;) {
            this.#size -= this.#entries.shift()[1].length;
            this.#place.firstChild.remove();
        }
        if (this.#follows || kind === 'typed') this.end();
    }

    /** Shows the last line, once before the next picture is drawn. */
    end() {
        this.#frame ||= requestAnimationFrame(() => {
            this.#frame = 0;
            this.#place.scrollTop = this.#place.scrollHeight;
        });
    }

    typed(line, number) {
        this.#add('typed', prompt(number) + line + '\n', line);
    }

    /** What a line wrote: its prefix, how many characters are left out behind that, and the rest, with the number of the fault that it ended with. */
    wrote({ prefix, cut, suffix, fault }) {
        if (cut) {
            this.#add('wrote', prefix);
            this.note(`\n${cut.toLocaleString('en')} characters are left out here.`);
        }
        for (const it of parts(cut ? suffix : prefix, fault)) this.#add(it.isFault ? 'fault' : 'wrote', it.text);
    }

    /** What the page says. */
    note(text) {
        this.#add('note', text + '\n');
    }

    /** Lines that are not done, which a click takes again. */
    undone(why, lines) {
        this.note(why);
        for (const line of lines) this.#add('undone', prompt(0) + line + '\n', line);
    }

    clear() {
        this.#entries = [];
        this.#size = 0;
        this.#place.replaceChildren();
    }

    /** The end of the transcript, to be kept. */
    last() {
        let size = 0, from = this.#entries.length;
        while (from > 0 && (size += this.#entries[from - 1][1].length) <= KEPT) from--;
        return this.#entries.slice(from);
    }

    /** Shows what was kept. */
    restore(entries) {
        for (const entry of entries) this.#add(...entry);
        this.end();
    }
}
