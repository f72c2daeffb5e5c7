/** The line that is typed: its history, the characters behind the backquote, the completion of names, and what is pasted. */
import { completion, pasted, prompt } from './text.mjs';

const REMEMBERED = 500;     // lines of the history

/** Lets a backquote and a key type a character of the language in a field. It goes by what stands there, since not all keyboards tell their keys. */
export function typeByKeys(field, keys) {
    let armed = -1;         // where a backquote waits for its key
    field.addEventListener('input', ({ data }) => {
        const at = field.selectionStart, before = field.value.slice(0, at), key = before.at(-1);
        if (armed === at - 1 && before.at(-2) === '`' && keys.has(key)) {
            field.setRangeText(keys.get(key), at - 2, at, 'end');
            armed = -1;
        } else {
            armed = data && key === '`' ? at : -1;
        }
    });
    field.addEventListener('keydown', event => {
        if (event.key === 'Escape') armed = -1;
        if (event.key !== 'Dead' || event.code !== 'Backquote') return;
        // On a keyboard whose backquote waits for a letter to stand above.
        event.preventDefault();
        field.setRangeText('`', field.selectionStart, field.selectionEnd, 'end');
        armed = field.selectionStart;
    });
}

export class Entry {
    #line;
    #prompt;
    #history = [];
    #at = 0;
    #draft = '';
    #listed = null;         // what stood before the cursor when names were told

    /** `keys` are characters by their key; `known` gives the names to complete; `enter` is called with the lines that are typed, and `say` with what
     * is to be told. */
    constructor({ line, label, form, keys, known, enter, say }) {
        this.#line = line;
        this.#prompt = label;
        this.known = known;
        this.say = say;
        form.addEventListener('submit', event => {
            event.preventDefault();
            const typed = line.value;
            line.value = '';
            enter([typed]);
        });
        line.addEventListener('keydown', event => this.#key(event));
        typeByKeys(line, keys);
        line.addEventListener('paste', event => {
            const { lines, last } = pasted(event.clipboardData.getData('text'));
            if (!lines.length) return;
            event.preventDefault();
            lines[0] = line.value.slice(0, line.selectionStart) + lines[0];
            line.value = last + line.value.slice(line.selectionEnd);
            line.setSelectionRange(last.length, last.length);
            enter(lines);
        });
        this.number(0);
    }

    focus() {
        this.#line.focus({ preventScroll: true });
    }

    /** Puts text where the cursor is. */
    put(text) {
        this.#line.setRangeText(text, this.#line.selectionStart, this.#line.selectionEnd, 'end');
        this.focus();
    }

    set(text) {
        this.#line.value = text;
        this.focus();
    }

    /** The line is this one of the definition that is open; 0 where none is. */
    number(number) {
        this.#prompt.textContent = prompt(number);
        this.#line.setAttribute('aria-label', number ? `Line ${number} of the definition` : 'A line of APL');
    }

    get history() {
        return this.#history;
    }

    set history(lines) {
        this.#history = lines.slice(-REMEMBERED);
        this.#at = this.#history.length;
    }

    remember(line) {
        if (line.trim() && line !== this.#history.at(-1)) this.#history.push(line);
        this.history = this.#history;
    }

    #key(event) {
        if (event.isComposing || event.ctrlKey || event.altKey || event.metaKey) return;
        if (event.key === 'ArrowUp' || event.key === 'ArrowDown') {
            this.#move(event.key === 'ArrowUp' ? -1 : 1);
            event.preventDefault();
        } else if (event.key === 'Tab' && !event.shiftKey) {
            if (this.#complete()) event.preventDefault();
        }
    }

    #move(by) {
        if (this.#at === this.#history.length) this.#draft = this.#line.value;
        this.#at = Math.max(0, Math.min(this.#history.length, this.#at + by));
        this.set(this.#history[this.#at] ?? this.#draft);
        this.#line.setSelectionRange(this.#line.value.length, this.#line.value.length);
    }

    /** Completes the name before the cursor, and tells which there are where there are more. Returns whether that did anything: where not, the Tab key
     * leaves the line. */
    #complete() {
        const before = this.#line.value.slice(0, this.#line.selectionStart), { rest, found } = completion(before, this.known());
        if (!found.length || !rest && (found.length === 1 || this.#listed === before)) return false;
        this.put(rest);
        if (found.length > 1) this.say(found.join('  '));
        this.#listed = before + rest;
        return true;
    }
}
