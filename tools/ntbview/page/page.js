// A page's beginning: reads the texts in it, and goes through the steps by keys, clicks and buttons.
'use strict';

const page = {
    trace: new Trace(find('script').textContent, find('trace').textContent),
    count: 0,
    chosen: document.body.dataset.pair,
    owners: new Map(),
    drawn: {},
};

// The pair that is drawn: the chosen one, or that of the step that was made last.
function pairNow() {
    const {trace, chosen, count} = page;
    if (chosen) return chosen;
    const near = count ? trace.step(count - 1) : trace.steps ? trace.step(0) : null;
    return near && trace.pairs.has(near.step.pair) ? near.step.pair : trace.pairs.keys().next().value;
}

function tell(step, pair) {
    const {trace, count} = page;
    if (!step) {
        find('place').textContent = `before the first of ${trace.steps} steps`;
        find('told').replaceChildren(trace.steps ? 'Right arrow: the first step.' : 'The script makes no step.');
        return;
    }
    const refused = isRefused(step), about = trace.pairs.get(step.step.pair), change = about ? changeText(about, step) : '';
    const changes = [...change ? [`${change}.`] : [], ...refused ? ['Refused: nothing changed.'] : []];
    find('place').textContent = `step ${count} of ${trace.steps}, line ${step.line}`;
    find('told').replaceChildren(
        make('span', 'step-words', stepText(step)), ' ',
        make('span', refused ? 'answer refused' : 'answer', answerText(step)),
        make('span', 'change', changes.join(' ')));
    if (step.step.pair !== pair) find('told').append(make('span', 'change', `Another pair: ${pair} stays as it was.`));
}

function draw() {
    const {trace, count} = page, name = pairNow(), pair = trace.pairs.get(name);
    const last = count ? trace.step(count - 1) : null, next = count < trace.steps ? trace.step(count) : null;
    tell(last, name);
    for (const id of ['first', 'back']) find(id).setAttribute('aria-disabled', count === 0);
    for (const id of ['next', 'last']) find(id).setAttribute('aria-disabled', count === trace.steps);
    find('comment').textContent = last ? trace.commentAbove(last.line) : '';
    find('slider').value = count;
    find('slider').setAttribute('aria-valuetext', find('place').textContent);
    page.list.show(count, name);
    if (!pair) return;
    const now = trace.after(count)[name];
    if (page.drawn.pair !== name || page.drawn.count !== count - 1) page.owners.clear();
    page.drawn = {pair: name, count};
    find('pair-name').textContent = `pair ${name}${pair.strict ? ', strict' : ''}${pair.raw ? ', raw' : ''}`;
    find('link').textContent = `link ${now.link}${now.session ? `, session ${now.session}${now.link === 'up' ? '' : ' is lost'}` : ''}`;
    find('bridge').className = now.link;
    find('sides').replaceChildren(...SIDES.map(side => drawSide(pair, now, side)));
    find('flights').replaceChildren(...SIDES.map(side => drawFlight(pair, now, side, last, next)));
    find('rings').replaceChildren(...drawRings(pair, now, page.owners));
    find('legend').replaceChildren(...legend(pair));
}

// Goes to the moment after so many steps. The address follows when no key is pressed for a while: browsers count its changes.
function go(count) {
    page.count = Math.max(0, Math.min(page.trace.steps, count));
    draw();
    clearTimeout(page.waiting);
    page.waiting = setTimeout(() => history.replaceState(null, '', `#step=${page.count}`), 400);
}

// The count after the last step of the next line with steps, or of the one before.
function lineOn(away) {
    const {trace, count} = page, {lineOf, stepsUpTo, steps} = trace;
    if (away > 0) return count < steps ? stepsUpTo[lineOf[count]] : steps;
    const line = count ? lineOf[count - 1] : 0;
    return line ? stepsUpTo[line - 1] : 0;
}

const KEYS = {
    ArrowRight: () => page.count + 1, ArrowDown: () => page.count + 1,
    ArrowLeft: () => page.count - 1, ArrowUp: () => page.count - 1,
    PageDown: () => lineOn(1), PageUp: () => lineOn(-1), Home: () => 0, End: () => page.trace.steps,
};

function pressed(event) {
    if (event.altKey || event.ctrlKey || event.metaKey || event.target.tagName === 'SELECT' || !(event.key in KEYS)) return;
    event.preventDefault();
    go(KEYS[event.key]());
}

function fillPairs() {
    const choice = find('pair'), names = [...page.trace.pairs.keys()];
    for (const name of ['', ...names])
        choice.append(new Option(name ? `pair ${name}` : 'the pair of the step', name, false, name === page.chosen));
    choice.closest('label').hidden = names.length < 2;
    choice.addEventListener('change', () => { page.chosen = choice.value; draw(); });
}

function begin() {
    const {trace} = page;
    page.list = new StepList(trace, find('list'), go);
    if (trace.refusal) {
        document.body.classList.add('is-refused');
        find('refusal').textContent = `Line ${trace.refusal.line} is refused: ${trace.refusal.cause}. No step of the script was made.`;
        page.list.box.scrollTop = (trace.refusal.line - 3) * ROW_HIGH;
        page.list.draw();
        return;
    }
    fillPairs();
    find('slider').max = trace.steps;
    find('slider').addEventListener('input', () => go(Number(find('slider').value)));
    find('first').addEventListener('click', () => go(0));
    find('back').addEventListener('click', () => go(page.count - 1));
    find('next').addEventListener('click', () => go(page.count + 1));
    find('last').addEventListener('click', () => go(trace.steps));
    document.addEventListener('keydown', pressed);
    find('counts').textContent = trace.counts.map(countText).join('\n');
    if (!trace.isWhole) find('refusal').textContent = 'The trace was cut off: it has no end.';
    const asked = /^#step=(\d+)$/.exec(location.hash);
    go(asked ? Number(asked[1]) : Math.min(1, trace.steps));
    window.addEventListener('hashchange', () => {
        const now = /^#step=(\d+)$/.exec(location.hash);
        if (now) go(Number(now[1]));
    });
}

begin();
