/** The language bar: a button for each character, whose name, key and example are told where it is pointed at. */
import { make } from './panels.mjs';

/** `put` is called with a character to be typed, `say` with what is to be told and of which character, and `explain` with one whose entry is asked
 * for. */
export function showBar(bar, { keys, examples, meanings }, { put, say, explain }) {
    const buttons = keys.filter(([, character]) => character !== '`').map(([key, character]) => {
        const example = examples[character], told = example ? `${example[0]} gives ${example[1]}` : '';
        const it = make('button', {
            type: 'button', title: [meanings[character], `Key: \` ${key}`, told, explain ? 'F1 or the right button: more' : ''].filter(Boolean).join('\n'),
            tabIndex: -1, 'aria-label': meanings[character], 'aria-description': `Backquote ${key}. ${told}`,
            onclick: () => put(character),
        }, character);
        const tell = () => say(`${character}  ${meanings[character]}   key \` ${key}${example ? `   ${example[0]}  gives  ${example[1]}` : ''}${explain ? '   F1 tells more' : ''}`,
            character);
        it.addEventListener('pointerenter', tell);
        it.addEventListener('focus', tell);
        it.addEventListener('blur', () => say(''));
        if (explain) {
            it.addEventListener('contextmenu', event => {
                event.preventDefault();
                explain(character);
            });
        }
        // The cursor stays in the line.
        it.addEventListener('pointerdown', event => event.preventDefault());
        return it;
    });
    bar.append(...buttons);
    buttons[0].tabIndex = 0;
    // One stop of the Tab key; the arrows move within.
    bar.addEventListener('keydown', event => {
        const at = buttons.indexOf(document.activeElement), by = { ArrowRight: 1, ArrowLeft: -1 }[event.key];
        const to = event.key === 'Home' ? 0 : event.key === 'End' ? buttons.length - 1 : by && at >= 0 ? (at + by + buttons.length) % buttons.length : -1;
        if (to < 0) return;
        event.preventDefault();
        buttons[at].tabIndex = -1;
        buttons[to].tabIndex = 0;
        buttons[to].focus();
    });
    bar.addEventListener('pointerleave', () => say(''));
}
