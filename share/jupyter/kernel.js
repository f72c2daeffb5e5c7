// For the classic notebook: the bar of the language's characters, the backquote prefix, and a font that has them all.
define(['module', 'base/js/namespace'], function (module, Jupyter) {
    'use strict';
    const SIGNS = /* the characters */ [];
    const BY_KEY = new Map(SIGNS.map(it => [it.key, it.character]));
    const STYLE = `
        @font-face { font-family: APL; src: url("${new URL('apl.woff2', new URL(module.uri, location.href))}") format("woff2"); }
        .CodeMirror pre, .output_area pre, .output_area td, .tooltip pre, #pager pre, .completions select, #apl-bar { font-family: APL, "DejaVu Sans Mono", monospace; }
        #apl-bar { padding: 2px 12px; border-bottom: 1px solid #ddd; background: #f7f7f7; }
        #apl-bar button { width: 1.6em; padding: 0; border: 1px solid transparent; border-radius: 3px; background: none; font: inherit; font-size: 16px; }
        #apl-bar button:hover, #apl-bar button:focus { border-color: #aaa; background: #fff; }
        #apl-hint { min-height: 1.5em; color: #555; font-size: 13px; white-space: pre; overflow: hidden; }`;

    function put(editor, text) {
        editor.replaceSelection(text, 'end');
        editor.focus();
    }

    // The key behind a backquote types its character. Another key does what it does.
    function bind(editor) {
        if (editor.hasAplKeys) return;
        editor.hasAplKeys = true;
        let isPrefixed = false;
        editor.on('keypress', (_, event) => {
            if (!event.key || event.key.length !== 1 || event.ctrlKey || event.altKey || event.metaKey) return;
            if (isPrefixed) {
                isPrefixed = false;
                if (!BY_KEY.has(event.key)) return;
                put(editor, BY_KEY.get(event.key));
                event.preventDefault();
            } else if (event.key === '`') {
                isPrefixed = true;
                event.preventDefault();
            }
        });
        editor.on('keydown', (_, event) => { isPrefixed = isPrefixed && (event.key.length === 1 || event.key === 'Shift'); });
        editor.on('blur', () => { isPrefixed = false; });
    }

    function bindAll() {
        for (const cell of Jupyter.notebook.get_cells()) if (cell.cell_type === 'code') bind(cell.code_mirror);
    }

    function told(it) {
        return `${it.character}  ${it.meaning}   key \` ${it.key}${it.example ? `   ${it.example}  gives  ${it.gives}` : ''}`;
    }

    // One stop of the Tab key; the arrow keys move within.
    function moveWithin(bar, event) {
        const buttons = [...bar.querySelectorAll('button')], at = buttons.indexOf(document.activeElement);
        const by = { ArrowRight: 1, ArrowLeft: -1 }[event.key];
        if (!by || at < 0) return;
        event.preventDefault();
        const to = (at + by + buttons.length) % buttons.length;
        buttons[at].tabIndex = -1;
        buttons[to].tabIndex = 0;
        buttons[to].focus();
    }

    function showBar() {
        const bar = document.createElement('div'), hint = document.createElement('div');
        bar.id = 'apl-bar';
        hint.id = 'apl-hint';
        for (const it of SIGNS.filter(it => it.character !== '`')) {
            const button = document.createElement('button');
            Object.assign(button, { type: 'button', textContent: it.character, tabIndex: -1, title: `${it.meaning}\nKey: \` ${it.key}${it.example ? `\n${it.example} gives ${it.gives}` : ''}` });
            button.setAttribute('aria-label', it.meaning);
            // The cursor stays in the cell.
            button.addEventListener('pointerdown', event => event.preventDefault());
            button.addEventListener('mousedown', event => event.preventDefault());
            button.addEventListener('click', () => {
                const cell = Jupyter.notebook.get_selected_cell();
                if (cell && cell.code_mirror) put(cell.code_mirror, it.character);
            });
            for (const name of ['pointerenter', 'focus']) button.addEventListener(name, () => { hint.textContent = told(it); });
            bar.append(button);
        }
        bar.firstChild.tabIndex = 0;
        bar.addEventListener('keydown', event => moveWithin(bar, event));
        bar.addEventListener('pointerleave', () => { hint.textContent = ''; });
        bar.append(hint);
        document.getElementById('header').append(bar);
        Jupyter.notebook.events.trigger('resize-header.Page');
    }

    return {
        onload() {
            bindAll();
            Jupyter.notebook.events.on('create.Cell', () => setTimeout(bindAll));
            Jupyter.notebook.events.on('edit_mode.Cell', bindAll);
            if (document.getElementById('apl-bar')) return;
            const style = document.createElement('style');
            style.textContent = STYLE;
            document.head.append(style);
            showBar();
        },
    };
});
