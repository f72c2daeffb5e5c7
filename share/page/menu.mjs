/** A menu, which is filled when it is opened, and closed by Escape or by what is chosen. */
import { make } from './panels.mjs';

/** `rows` gives what is in it: each a text, what it does, and whether it is the one that stands; or null for a line between. */
export function menu(details, rows) {
    const close = () => { details.open = false; };
    details.addEventListener('toggle', async () => {
        if (!details.open) return;
        const found = await rows();
        details.querySelector('div').replaceChildren(...found.map(row => row
            ? make('button', { type: 'button', 'aria-current': String(!!row[2]), onclick: () => { close(); row[1](); } }, row[0]) : make('hr')));
    });
    details.addEventListener('keydown', event => {
        if (event.key !== 'Escape' || !details.open) return;
        event.preventDefault();
        close();
        details.querySelector('summary').focus();
    });
    document.addEventListener('pointerdown', ({ target }) => details.contains(target) || close());
}
